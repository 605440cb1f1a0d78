//! Who a program is once it has its ports, which may be below 1024 and so root's.
use nix::sys::stat::{umask, Mode};
use nix::unistd::{geteuid, initgroups, setgid, setgroups, setuid, Gid, Group, Uid, User};
use std::ffi::CString;
use std::io::{self, ErrorKind};

/// What the options say of it.
#[derive(Clone, Debug, Default)]
pub struct Identity {
    /// The name of the user.
    pub user: Option<String>,
    /// The name of a group, in place of those of the user.
    pub group: Option<String>,
    /// What the modes of new files lack.
    pub umask: Option<u32>,
}

/// A user and a group that the system knows.
struct Known {
    name: CString,
    user: Uid,
    group: Gid,
    /// Whether the user's further groups are left out.
    is_only_group: bool,
}

impl Identity {
    /// Lets new files lack these modes from now on.
    pub fn set_umask(&self) {
        if let Some(mask) = self.umask {
            umask(Mode::from_bits_truncate(mask));
        }
    }

    /// Whether the program can be that.
    ///
    /// # Errors
    ///
    /// Where the system doesn't know the user or the group, or the program is another user than root.
    pub fn check(&self) -> io::Result<()> {
        self.known().map(drop)
    }

    /// Lets the program be that user, with all its threads and for good.
    ///
    /// # Errors
    ///
    /// As those of [`Identity::check`], and where the system refuses it.
    pub fn take(&self) -> io::Result<()> {
        let Some(known) = self.known()? else { return Ok(()) };
        if geteuid() == known.user && !geteuid().is_root() {
            return Ok(());
        }
        if known.is_only_group {
            setgroups(&[known.group])?;
        } else {
            initgroups(&known.name, known.group)?;
        }
        setgid(known.group)?;
        setuid(known.user)?;
        Ok(())
    }

    /// The user, where one is named.
    fn known(&self) -> io::Result<Option<Known>> {
        let Some(name) = &self.user else { return Ok(None) };
        let unknown = |what: String| io::Error::new(ErrorKind::NotFound, what);
        let user = User::from_name(name)?;
        let user = user.ok_or_else(|| unknown(format!("--user: there is no user {name}")))?;
        let group = match &self.group {
            None => user.gid,
            Some(name) => {
                let group = Group::from_name(name)?;
                group.ok_or_else(|| unknown(format!("--group: there is no group {name}")))?.gid
            }
        };
        if !geteuid().is_root() && geteuid() != user.uid {
            let text = format!("--user: only root can become {name}");
            return Err(io::Error::new(ErrorKind::PermissionDenied, text));
        }
        let (name, is_only_group) = (CString::new(user.name)?, self.group.is_some());
        Ok(Some(Known { name, user: user.uid, group, is_only_group }))
    }
}
