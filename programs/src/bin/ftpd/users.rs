//! Who may log in. A file has the hashes of the users' passwords.
use crate::folder::Folder;
use crate::guesses::Turn;
use pbkdf2::password_hash::rand_core::OsRng;
use pbkdf2::password_hash::{self, PasswordHash, PasswordHasher, PasswordVerifier, SaltString};
use pbkdf2::{Params, Pbkdf2};
use std::collections::HashMap;
use std::path::Path;
use std::{fs, io};
use tokio::task::spawn_blocking;

/// How often a password is hashed.
pub const ROUNDS: &str = "600000";

/// What an unknown name's password is compared with where there are no users.
const NO_HASH: &str = "$pbkdf2-sha256$i=600000,l=32$AAAAAAAAAAAAAAAAAAAAAA\
                       $AAAAAAAAAAAAAAAAAAAAAAAAAAAAAAAAAAAAAAAAAAA";

/// What a user may do.
#[derive(Clone, Copy, Debug, PartialEq, Eq)]
pub enum Rights {
    /// Read files.
    Read,
    /// Read files, and add new ones.
    Add,
    /// Only add new files, and read none.
    Upload,
    /// Read files, and write, rename and delete them.
    Write,
}

impl Rights {
    fn named(name: &str) -> Option<Rights> {
        match name {
            "read" => Some(Rights::Read),
            "add" => Some(Rights::Add),
            "upload" => Some(Rights::Upload),
            "write" => Some(Rights::Write),
            _ => None,
        }
    }

    /// Whether the user may read and list files.
    pub fn may_read(self) -> bool {
        self != Rights::Upload
    }

    /// Whether the user may make files and directories.
    pub fn may_add(self) -> bool {
        self != Rights::Read
    }

    /// Whether the user may change what is there.
    pub fn may_change(self) -> bool {
        self == Rights::Write
    }
}

/// What a user has.
#[derive(Clone)]
pub struct Account {
    /// What the user may do.
    pub rights: Rights,
    /// The user's own folder, in place of that of all.
    pub folder: Option<Folder>,
}

struct User {
    hash: String,
    account: Account,
}

/// The users, and whether anybody may read.
pub struct Users {
    users: HashMap<String, User>,
    anonymous: bool,
    /// What an unknown name's password is compared with, so that it takes as long as a wrong one.
    decoy: String,
}

impl Users {
    /// Reads the file of the users, whose own folders are named from that of all.
    ///
    /// # Errors
    ///
    /// Where the file can't be read, or a line of it is no user or one that could never log in.
    pub fn read(file: Option<&Path>, anonymous: bool, folder: &Path) -> io::Result<Users> {
        let text = file.map_or(Ok(String::new()), fs::read_to_string)?;
        let mut users = HashMap::new();
        let text = text.strip_prefix('\u{feff}').unwrap_or(&text);
        for (line, number) in text.lines().zip(1..) {
            if !line.is_empty() && !line.starts_with('#') {
                add_user(&mut users, line, anonymous, folder).map_err(|fault| {
                    io::Error::new(io::ErrorKind::InvalidData, format!("line {number} {fault}"))
                })?;
            }
        }
        let decoy = users.values().next().map_or(NO_HASH, |user: &User| &user.hash).to_string();
        Ok(Users { users, anonymous, decoy })
    }

    /// What anybody may do who gives this name, where that takes no password.
    pub fn account_of_anybody(&self, name: &[u8]) -> Option<Account> {
        let account = Account { rights: Rights::Read, folder: None };
        (self.anonymous && is_anonymous(name)).then_some(account)
    }

    /// What the user of this name and password has; `None` where there is none. The turn ends once the
    /// password is hashed, also where nobody waits for it any more.
    pub async fn account(&self, name: &[u8], password: &[u8], turn: Turn) -> Option<Account> {
        let user = std::str::from_utf8(name).ok().and_then(|name| self.users.get(name));
        let hash = user.map_or(&self.decoy, |user| &user.hash).clone();
        let password = password.to_vec();
        let hashed = spawn_blocking(move || {
            let _turn = turn;
            is_password(&password, &hash)
        });
        let is_right = hashed.await.unwrap_or(false);
        user.filter(|_| is_right).map(|user| user.account.clone())
    }
}

/// Adds the user of a line, or returns what is wrong with it.
fn add_user(
    users: &mut HashMap<String, User>,
    line: &str,
    anonymous: bool,
    all: &Path,
) -> Result<(), &'static str> {
    let (name, hash, rights, folder) = match line.splitn(4, ':').collect::<Vec<_>>()[..] {
        [name, hash] => (name, hash, "write", None),
        [name, hash, rights] => (name, hash, rights, None),
        [name, hash, rights, folder] => (name, hash, rights, Some(folder)),
        _ => return Err("is none of NAME:HASH, NAME:HASH:RIGHTS and NAME:HASH:RIGHTS:FOLDER"),
    };
    if name.is_empty() {
        return Err("has no name");
    }
    if name.contains('\r') {
        return Err("has a name that no client can send");
    }
    if anonymous && is_anonymous(name.as_bytes()) {
        return Err("has the name of anybody who may read: that needs --no-anonymous");
    }
    if !is_hash(hash) {
        return Err("has no hash as --hash-password prints it");
    }
    let rights =
        Rights::named(rights).ok_or("has other rights than read, add, upload and write")?;
    let folder = folder.map(|name| own_folder(all, name)).transpose()?;
    let user = User { hash: hash.to_string(), account: Account { rights, folder } };
    match users.insert(name.to_string(), user) {
        Some(_) => Err("has the name of another line"),
        None => Ok(()),
    }
}

/// A user's own folder, named from that of all.
fn own_folder(all: &Path, name: &str) -> Result<Folder, &'static str> {
    let opened = Folder::open(&all.join(name)).ok().filter(|_| !name.is_empty());
    opened.ok_or("has a folder that can't be opened")
}

/// Whether this is a name by which anybody may read.
fn is_anonymous(name: &[u8]) -> bool {
    [&b"anonymous"[..], b"ftp"].iter().any(|it| name.eq_ignore_ascii_case(it))
}

/// Whether a password can have this hash. None has one of another algorithm, without a salt, or of
/// another length than it says.
fn is_hash(hash: &str) -> bool {
    let Ok(hash) = PasswordHash::new(hash) else { return false };
    let Ok(params) = Params::try_from(&hash) else { return false };
    let (Some(salt), Some(output)) = (hash.salt, hash.hash) else { return false };
    // one round shows it as well as many
    let params = Params { rounds: 1, ..params };
    let (algorithm, version) = (Some(hash.algorithm), hash.version);
    let made = Pbkdf2.hash_password_customized(b"", algorithm, version, params, salt);
    made.is_ok_and(|made| made.hash.is_some_and(|it| it.len() == output.len()))
}

fn is_password(password: &[u8], hash: &str) -> bool {
    PasswordHash::new(hash).and_then(|hash| Pbkdf2.verify_password(password, &hash)).is_ok()
}

/// The hash of a password, as a PHC string, with a salt of its own.
///
/// # Errors
///
/// Those of the package, as for a number of rounds that it doesn't take.
pub fn hash_password(password: &[u8], rounds: u32) -> password_hash::Result<String> {
    let salt = SaltString::generate(&mut OsRng);
    let params = Params { rounds, ..Params::default() };
    Ok(Pbkdf2.hash_password_customized(password, None, None, params, &salt)?.to_string())
}
