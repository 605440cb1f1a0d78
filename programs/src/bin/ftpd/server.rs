//! What the sessions share: some of it is read again at SIGHUP, for those that begin after that.
use crate::about;
use crate::arguments::Settings;
use crate::folder::Folder;
use crate::guesses::Guesses;
use crate::users::{Account, Users};
use std::io;
use std::net::IpAddr;
use std::path::PathBuf;
use std::sync::Arc;
use std::time::Duration;
use unftp_control_programs::tls::TlsAcceptors;

/// What a session shares with others.
pub struct Server {
    /// What the command line says.
    pub settings: Arc<Settings>,
    /// The folder that is served.
    pub folder: Folder,
    /// Who may log in.
    pub users: Arc<Users>,
    /// What is known of wrong passwords.
    pub guesses: Arc<Guesses>,
    /// What turns connections to TLS, where there is a certificate.
    pub tls: Option<TlsAcceptors>,
}

/// What a password is.
pub enum Checked {
    /// That of a user who has this.
    Right(Account),
    /// Wrong. Its reply is to take so long.
    Wrong(Duration),
    /// Not looked at, since too many were wrong before.
    Unseen,
}

impl Server {
    /// Looks at the password of a name that comes from an address.
    pub async fn check(&self, name: &[u8], password: &[u8], from: IpAddr) -> Checked {
        if let Some(account) = self.users.account_of_anybody(name) {
            return Checked::Right(account);
        }
        let turn = self.guesses.turn(from).await;
        // others may have been wrong meanwhile
        if self.guesses.refuses(name, from) {
            return Checked::Unseen;
        }
        match self.users.account(name, password, turn).await {
            Some(account) => {
                self.guesses.right(name, from);
                Checked::Right(account)
            }
            None => Checked::Wrong(self.guesses.wrong(name, from)),
        }
    }

    /// Opens the folder, and reads the files that the settings name.
    ///
    /// # Errors
    ///
    /// Where the folder can't be opened, or a file can't be read or is not what it has to be.
    pub fn read(settings: Settings) -> io::Result<Server> {
        let named = settings.folder.display().to_string();
        let folder = Folder::open(&settings.folder).map_err(|error| about(&named, error))?;
        let (users, tls) = (read_users(&settings)?, read_tls(&settings)?);
        let guesses = Arc::new(Guesses::new(settings.guesses));
        Ok(Server { settings: Arc::new(settings), folder, users, guesses, tls })
    }

    /// The same with what the files have now. Where one is at fault, which is logged, what was read
    /// of it before stays.
    pub fn read_again(&self) -> Server {
        Server {
            settings: self.settings.clone(),
            folder: self.folder.clone(),
            guesses: self.guesses.clone(),
            users: or_before(read_users(&self.settings), &self.users),
            tls: or_before(read_tls(&self.settings), &self.tls),
        }
    }
}

fn read_users(settings: &Settings) -> io::Result<Arc<Users>> {
    let file = settings.users.as_deref();
    let users = Users::read(file, settings.anonymous, &settings.folder);
    users.map(Arc::new).map_err(|error| about("the users", error))
}

fn read_tls(settings: &Settings) -> io::Result<Option<TlsAcceptors>> {
    let files = settings.common.tls.as_ref();
    let read = |(certificates, key): &(PathBuf, PathBuf)| {
        TlsAcceptors::read(certificates, key, settings.common.data_session)
    };
    files.map(read).transpose().map_err(|error| about("the certificate or its key", error))
}

/// What was read, or else what was read before.
fn or_before<T: Clone>(read: io::Result<T>, before: &T) -> T {
    read.unwrap_or_else(|error| {
        tracing::error!("{error}; what was read before stays");
        before.clone()
    })
}
