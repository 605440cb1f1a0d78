//! Files that are received. One that begins at its start is written beside its name and renamed at
//! its end, so that nobody reads a part of it and no two uploads are mixed. What goes on with a file
//! that is there is written in place, by one upload at a time: a lock keeps others away.
use crate::folder::{FilePath, Folder, New};
use crate::transfer::size;
use pbkdf2::password_hash::rand_core::{OsRng, RngCore};
use rustix::fs::{self, Advice, AtFlags, FlockOperation, Mode, OFlags, Stat};
use rustix::io::{Errno, OwnedFd};
use rustix::process::geteuid;
use std::ffi::{OsStr, OsString};
use std::fs::File;
use std::io;
use std::os::unix::ffi::OsStrExt;
use std::os::unix::fs::fchown;

/// How names begin under which files are written. No listing shows them.
pub const BESIDE: &[u8] = b".ftpd-upload-";

/// How many bytes of a file that replaces another one may wait for the disk to begin with them.
const AHEAD: u64 = 8 << 20;

/// What happens with what came of an upload that is cut.
#[derive(Clone, Copy, Debug, PartialEq, Eq)]
pub enum Cut {
    /// It gets its name: a client goes on from there by REST.
    Kept,
    /// It is removed, where it has not been written in place.
    Removed,
}

/// The file that is received. It is made once the data connection is open, so that none is left where
/// it never opens.
pub enum Target {
    /// One that is there, and open and locked.
    Open(File),
    /// One that is made where there is none.
    Absent(Folder, FilePath, New, Cut),
    /// One that is written beside, and what it replaces, which is open and locked.
    Beside(Folder, FilePath, Option<File>, Cut),
    /// One that is written beside, and replaces nothing.
    New(Folder, FilePath, Cut),
}

impl Target {
    /// That of a file which begins at its start. One that may not be replaced is written in place.
    pub fn whole(folder: &Folder, path: &FilePath, cut: Cut) -> io::Result<(Target, u64)> {
        let beside = |file| Target::Beside(folder.clone(), path.clone(), file, cut);
        match folder.write(path) {
            Err(error) if error.kind() == io::ErrorKind::NotFound => {
                folder.may_create(path)?;
                Ok((beside(None), 0))
            }
            opened => {
                let (file, facts) = opened?;
                if may_replace(folder, path, &facts) {
                    lock(&file, FlockOperation::NonBlockingLockShared)?;
                    return Ok((beside(Some(file)), size(&facts)));
                }
                lock(&file, FlockOperation::NonBlockingLockExclusive)?;
                Ok((Target::Open(file), size(&facts)))
            }
        }
    }

    /// That of a file where there is none.
    pub fn new(folder: &Folder, path: &FilePath, cut: Cut) -> io::Result<(Target, u64)> {
        match folder.has_entry(path) {
            Err(error) if error.kind() == io::ErrorKind::NotFound => {
                folder.may_create(path)?;
                Ok((Target::New(folder.clone(), path.clone(), cut), 0))
            }
            found => found.and(Err(Errno::EXIST.into())),
        }
    }

    /// That of a file which goes on, or of its end. Where there is none, it is only made for its start.
    pub fn rest(
        folder: &Folder,
        path: &FilePath,
        offset: u64,
        new: New,
        cut: Cut,
    ) -> io::Result<(Target, u64)> {
        let open = if new == New::Appended { Folder::append } else { Folder::write };
        match open(folder, path) {
            Err(error) if error.kind() == io::ErrorKind::NotFound && offset == 0 => {
                folder.may_create(path)?;
                Ok((Target::Absent(folder.clone(), path.clone(), new, cut), 0))
            }
            opened => {
                let (file, facts) = opened?;
                lock(&file, FlockOperation::NonBlockingLockExclusive)?;
                Ok((Target::Open(file), size(&facts)))
            }
        }
    }

    /// Its path, where it is made.
    pub fn path(&self) -> Option<&FilePath> {
        match self {
            Target::Open(_) => None,
            Target::Absent(_, path, ..) | Target::Beside(_, path, ..) => Some(path),
            Target::New(_, path, _) => Some(path),
        }
    }

    /// Opens it.
    pub fn open(self) -> io::Result<Upload> {
        match self {
            Target::Open(file) => Ok(Upload::new(file, None, Cut::Kept)),
            Target::Absent(folder, path, new, cut) => {
                let file = folder.create(&path, new)?;
                lock(&file, FlockOperation::NonBlockingLockExclusive)?;
                let own = new == New::Unique && cut == Cut::Removed;
                let entry = own.then(|| Entry::own(&folder, &path)).transpose()?;
                Ok(Upload::new(file, entry, cut))
            }
            Target::Beside(folder, path, replaced, cut) => {
                let (entry, file) = Entry::beside(&folder, &path, replaced)?;
                Ok(Upload::new(file, Some(entry), cut))
            }
            Target::New(folder, path, cut) => {
                let (mut entry, file) = Entry::beside(&folder, &path, None)?;
                entry.replaces = false;
                Ok(Upload::new(file, Some(entry), cut))
            }
        }
    }
}

/// A file that is received, while it is.
pub struct Upload {
    /// What is written.
    pub file: File,
    entry: Option<Entry>,
    cut: Cut,
    /// How many bytes were written, and with how many of them the disk was asked to begin.
    written: u64,
    begun: u64,
}

impl Upload {
    fn new(file: File, entry: Option<Entry>, cut: Cut) -> Upload {
        Upload { file, entry, cut, written: 0, begun: 0 }
    }

    /// Counts bytes that were written. ext4 writes a file to the disk before it gives it the name of
    /// another one. Little is left of that for the end where the disk has begun before.
    pub fn wrote(&mut self, count: usize) {
        self.written += count as u64;
        let left = self.written - self.begun;
        if left >= AHEAD && self.entry.as_ref().is_some_and(|entry| entry.replaced.is_some()) {
            let _ = fs::fadvise(&self.file, self.begun, left, Advice::DontNeed);
            self.begun = self.written;
        }
    }

    /// Gives a file that is whole its name.
    pub fn finish(self) -> io::Result<()> {
        self.entry.map_or(Ok(()), Entry::keep)
    }

    /// Keeps or removes what came of a file. Where nothing came, there is nothing to keep.
    pub fn cut(self) -> io::Result<()> {
        if self.cut == Cut::Kept && self.file.metadata()?.len() > 0 {
            return self.finish();
        }
        Ok(())
    }
}

/// A name under which a file is written, and which is removed where the file is not kept.
struct Entry {
    directory: OwnedFd,
    name: OsString,
    /// The name that the file is to have, where it is another one.
    to: Option<OsString>,
    /// What it replaces, which stays locked meanwhile.
    replaced: Option<File>,
    /// Whether it takes the place of what has its name then.
    replaces: bool,
    is_kept: bool,
}

impl Entry {
    /// That of a new file, which has its name already.
    fn own(folder: &Folder, path: &FilePath) -> io::Result<Entry> {
        let (directory, name) = folder.parent(path)?;
        let name = name.into();
        Ok(Entry { directory, name, to: None, replaced: None, replaces: false, is_kept: false })
    }

    /// A new file with a name of its own beside that of a path, and with the mode of what it replaces.
    fn beside(
        folder: &Folder,
        path: &FilePath,
        replaced: Option<File>,
    ) -> io::Result<(Entry, File)> {
        let (directory, to) = folder.parent(path)?;
        let random = format!("{:016x}", OsRng.next_u64());
        let name = OsStr::from_bytes(&[BESIDE, random.as_bytes()].concat()).to_owned();
        let flags = OFlags::WRONLY | OFlags::CREATE | OFlags::EXCL | OFlags::CLOEXEC;
        let file = fs::openat(&directory, &name, flags, Mode::from_raw_mode(0o666))?;
        let file = File::from(rustix::fd::OwnedFd::from(file));
        let to = Some(to.to_owned());
        let mut entry =
            Entry { directory, name, to, replaced: None, replaces: true, is_kept: false };
        if let Some(replaced) = &replaced {
            let facts = fs::fstat(replaced)?;
            if facts.st_gid != fs::fstat(&file)?.st_gid {
                // only to a group of its own may a process give a file
                let _ = fchown(&file, None, Some(facts.st_gid));
            }
            fs::fchmod(&file, Mode::from_raw_mode(facts.st_mode & 0o777))?;
        }
        entry.replaced = replaced;
        Ok((entry, file))
    }

    /// Gives the file its name, unless what has it now is written in place.
    fn keep(mut self) -> io::Result<()> {
        if let Some(to) = self.to.as_ref().filter(|_| !self.replaces) {
            // what it has from now on is removed by the name that is dropped
            fs::linkat(&self.directory, &self.name, &self.directory, to, AtFlags::empty())?;
            return Ok(());
        }
        if let Some(to) = &self.to {
            let flags = OFlags::WRONLY | OFlags::NOFOLLOW | OFlags::NONBLOCK | OFlags::CLOEXEC;
            // a file that was made meanwhile is replaced too
            let there = fs::openat(&self.directory, to, flags, Mode::empty());
            if let Ok(there) = &there {
                lock(there, FlockOperation::NonBlockingLockShared)?;
            }
            fs::renameat(&self.directory, &self.name, &self.directory, to)?;
        }
        self.is_kept = true;
        Ok(())
    }
}

impl Drop for Entry {
    fn drop(&mut self) {
        if !self.is_kept {
            let _ = fs::unlinkat(&self.directory, &self.name, AtFlags::empty());
        }
    }
}

/// Locks a file, or returns that it is busy. Not every file system has locks.
fn lock<F: rustix::fd::AsFd>(file: &F, operation: FlockOperation) -> io::Result<()> {
    match fs::flock(file, operation) {
        Err(Errno::WOULDBLOCK) => Err(Errno::AGAIN.into()),
        _ => Ok(()),
    }
}

/// Whether another file may have the name of a file: that is no link, and the only name of a file of
/// the server's own, in a directory where others may be made.
fn may_replace(folder: &Folder, path: &FilePath, facts: &Stat) -> bool {
    let Ok((directory, name)) = folder.parent(path) else { return false };
    let is_entry = fs::statat(&directory, name, AtFlags::SYMLINK_NOFOLLOW)
        .is_ok_and(|entry| (entry.st_dev, entry.st_ino) == (facts.st_dev, facts.st_ino));
    let is_own = facts.st_nlink == 1 && facts.st_uid == geteuid().as_raw();
    is_entry && is_own && folder.may_create(path).is_ok()
}
