//! TLS sessions of control connections, which their data connections resume: those of clients with
//! tickets and those of clients without. A ticket is the name of what the server keeps.
use pbkdf2::password_hash::rand_core::{OsRng, RngCore};
use std::collections::HashMap;
use std::net::IpAddr;
use std::sync::{Arc, Mutex, MutexGuard, PoisonError, Weak};
use std::time::Duration;
use tokio::sync::watch;
use tokio::time::timeout;
use tokio_rustls::rustls::server::{ProducesTickets, StoresServerSessions};

/// How long a client may use a ticket, in seconds: as long as there is its control connection.
const LIFETIME: u32 = 24 * 60 * 60;
/// How long another connection of a client may take to log in.
const LOGIN: Duration = Duration::from_secs(5);
/// How many bytes a ticket has.
const TICKET: usize = 32;

/// All sessions that may be resumed, by their names: their secrets, and whose they are.
#[derive(Default)]
pub struct Sessions(Mutex<ByName>);

type ByName = HashMap<Vec<u8>, (Vec<u8>, Weak<Connection>)>;

impl Sessions {
    fn lock(&self) -> MutexGuard<'_, ByName> {
        self.0.lock().unwrap_or_else(PoisonError::into_inner)
    }
}

/// A control connection. When it is dropped, its sessions are forgotten.
pub struct Connection {
    sessions: Arc<Sessions>,
    client: IpAddr,
    user: watch::Sender<Option<Vec<u8>>>,
    /// Whose session its last data connection has resumed.
    resumed: Mutex<Weak<Connection>>,
}

impl Connection {
    /// One of a client's address.
    pub fn new(sessions: Arc<Sessions>, client: IpAddr) -> Connection {
        Connection { sessions, client, user: watch::channel(None).0, resumed: Mutex::default() }
    }

    /// Notes whose it is, after a login.
    pub fn belongs_to(&self, user: &[u8]) {
        self.user.send_replace(Some(user.to_vec()));
    }

    fn add(self: &Arc<Connection>, name: Vec<u8>, secrets: Vec<u8>) {
        self.sessions.lock().insert(name, (secrets, Arc::downgrade(self)));
    }

    fn resumed(&self) -> MutexGuard<'_, Weak<Connection>> {
        self.resumed.lock().unwrap_or_else(PoisonError::into_inner)
    }

    /// The secrets of a session of this connection, or of another one from the same address.
    fn secrets(&self, name: &[u8]) -> Option<Vec<u8>> {
        let (secrets, owner) = self.sessions.lock().get(name)?.clone();
        let is_near = owner.upgrade()?.client == self.client;
        *self.resumed() = owner;
        is_near.then_some(secrets)
    }

    /// Whether its last data connection has resumed a session of the same user. A client with several
    /// connections may only know the session of the last one, on which it may just be logging in.
    pub async fn is_same_user(&self) -> bool {
        let Some(owner) = self.resumed().upgrade() else { return false };
        if std::ptr::eq(&*owner, self) {
            return true;
        }
        let mut user = owner.user.subscribe();
        drop(owner);
        let known = async {
            while user.borrow().is_none() {
                user.changed().await.ok()?;
            }
            user.borrow().clone()
        };
        let known = timeout(LOGIN, known).await.ok().flatten();
        known.is_some() && known == *self.user.borrow()
    }
}

impl Drop for Connection {
    fn drop(&mut self) {
        self.sessions.lock().retain(|_, (_, owner)| owner.strong_count() > 0);
    }
}

/// What a control connection keeps. It resumes no session itself.
pub struct OfControl(pub Weak<Connection>);

impl StoresServerSessions for OfControl {
    fn put(&self, name: Vec<u8>, secrets: Vec<u8>) -> bool {
        self.0.upgrade().map(|it| it.add(name, secrets)).is_some()
    }

    fn get(&self, _: &[u8]) -> Option<Vec<u8>> {
        None
    }

    fn take(&self, _: &[u8]) -> Option<Vec<u8>> {
        None
    }

    fn can_cache(&self) -> bool {
        true
    }
}

impl ProducesTickets for OfControl {
    fn enabled(&self) -> bool {
        true
    }

    fn lifetime(&self) -> u32 {
        LIFETIME
    }

    fn encrypt(&self, secrets: &[u8]) -> Option<Vec<u8>> {
        let mut name = vec![0; TICKET];
        OsRng.fill_bytes(&mut name);
        self.put(name.clone(), secrets.to_vec()).then_some(name)
    }

    fn decrypt(&self, _: &[u8]) -> Option<Vec<u8>> {
        None
    }
}

/// What data connections resume. A session isn't used up, and a ticket is given again.
pub struct OfData {
    connection: Weak<Connection>,
    ticket: Mutex<Option<Vec<u8>>>,
}

impl OfData {
    /// Those of a control connection.
    pub fn new(connection: Weak<Connection>) -> OfData {
        OfData { connection, ticket: Mutex::default() }
    }

    fn ticket(&self) -> MutexGuard<'_, Option<Vec<u8>>> {
        self.ticket.lock().unwrap_or_else(PoisonError::into_inner)
    }
}

impl StoresServerSessions for OfData {
    fn put(&self, _: Vec<u8>, _: Vec<u8>) -> bool {
        false
    }

    fn get(&self, name: &[u8]) -> Option<Vec<u8>> {
        self.connection.upgrade()?.secrets(name)
    }

    fn take(&self, name: &[u8]) -> Option<Vec<u8>> {
        self.get(name)
    }

    fn can_cache(&self) -> bool {
        false
    }
}

impl ProducesTickets for OfData {
    fn enabled(&self) -> bool {
        true
    }

    fn lifetime(&self) -> u32 {
        LIFETIME
    }

    fn encrypt(&self, _: &[u8]) -> Option<Vec<u8>> {
        self.ticket().clone()
    }

    fn decrypt(&self, ticket: &[u8]) -> Option<Vec<u8>> {
        *self.ticket() = Some(ticket.to_vec());
        self.get(ticket)
    }
}
