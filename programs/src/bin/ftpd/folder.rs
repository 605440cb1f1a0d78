//! The folder that is served. The kernel keeps each path in it: `openat2` resolves it below a
//! descriptor of the folder and refuses links and `..` that lead out, whatever is renamed
//! meanwhile.
use crate::devices::{Devices, Kind};
use rustix::fs::{self, AtFlags, Dir, FileType, Mode, OFlags, ResolveFlags, Stat, Timestamps};
use rustix::io::{Errno, OwnedFd};
use std::ffi::OsStr;
use std::fs::File;
use std::io;
use std::os::unix::ffi::OsStrExt;
use std::os::unix::io::AsRawFd;
use std::path::Path;
use std::sync::atomic::{AtomicU64, Ordering};
use std::sync::Arc;

/// A path in the folder, from the folder down. Its bytes are in no particular encoding.
#[derive(Clone, Debug, Default, PartialEq, Eq)]
pub struct FilePath {
    names: Vec<Vec<u8>>,
}

impl FilePath {
    /// The path that a client names where this is its working directory. `..` takes a name away, so
    /// that above the folder there is only the folder.
    pub fn join(&self, named: &[u8]) -> FilePath {
        let mut names = if named.starts_with(b"/") { Vec::new() } else { self.names.clone() };
        for name in named.split(|byte| *byte == b'/') {
            match name {
                b"" | b"." => {}
                b".." => drop(names.pop()),
                name => names.push(name.to_vec()),
            }
        }
        FilePath { names }
    }

    /// As a client names it, from a slash on.
    pub fn bytes(&self) -> Vec<u8> {
        [b"/", &self.names.join(&b'/')[..]].concat()
    }

    /// Its last name.
    pub fn name(&self) -> Option<&[u8]> {
        self.names.last().map(Vec::as_slice)
    }

    /// As the kernel takes it below the folder.
    fn relative(&self) -> Vec<u8> {
        if self.names.is_empty() {
            b".".to_vec()
        } else {
            self.names.join(&b'/')
        }
    }
}

/// What a file is made for.
#[derive(Clone, Copy, Debug, PartialEq, Eq)]
pub enum New {
    /// To be written: by STOR.
    Written,
    /// To be written at its end: by APPE.
    Appended,
    /// To be the first of its name: by STOU.
    Unique,
}

/// How often a path is opened that the kernel says to try again.
const TRIES: usize = 1000;

/// The folder.
#[derive(Clone)]
pub struct Folder {
    root: Arc<OwnedFd>,
    /// Which file systems were met in it.
    devices: Devices,
    /// How paths in it are resolved.
    resolve: ResolveFlags,
    /// How many names of its own it has chosen.
    chosen: Arc<AtomicU64>,
}

impl Folder {
    /// Opens the folder.
    ///
    /// # Errors
    ///
    /// Where it is no directory, or the kernel has no `openat2` (Linux 5.6).
    pub fn open(path: &Path) -> io::Result<Folder> {
        let flags = OFlags::PATH | OFlags::DIRECTORY | OFlags::CLOEXEC;
        let root = fs::openat(fs::cwd(), path, flags, Mode::empty())?;
        let resolve = ResolveFlags::BENEATH | ResolveFlags::NO_MAGICLINKS;
        let devices = Devices::default();
        let folder = Folder { root: Arc::new(root), devices, resolve, chosen: Arc::default() };
        folder.facts(&FilePath::default())?;
        Ok(folder)
    }

    /// The same folder for a thread that may wait for nothing: only paths are found that the kernel has
    /// in memory, and files opened whose file system is there. Before Linux 5.12 none are.
    pub fn in_memory(&self) -> Folder {
        Folder { resolve: self.resolve | ResolveFlags::CACHED, ..self.clone() }
    }

    /// Opens a path below the folder. A link that leads out of it is refused, as is each absolute
    /// one.
    fn open_below(&self, path: &FilePath, flags: OFlags, mode: Mode) -> io::Result<OwnedFd> {
        let flags = flags | OFlags::CLOEXEC;
        if self.resolve.contains(ResolveFlags::CACHED) {
            return self.open_at_once(path, flags, mode);
        }
        let mut left = TRIES;
        loop {
            left -= 1;
            match self.try_open(path, flags, mode) {
                // While a directory is renamed, the kernel may not know where `..` in a link leads.
                // It says the same of a file that another process has leased.
                Err(Errno::AGAIN | Errno::INTR) if left > 0 => {}
                opened => {
                    let opened = opened?;
                    self.devices.learn(&opened);
                    return Ok(opened);
                }
            }
        }
    }

    fn try_open(&self, path: &FilePath, flags: OFlags, mode: Mode) -> Result<OwnedFd, Errno> {
        fs::openat2(&*self.root, path.relative(), flags, mode, self.resolve)
    }

    /// Opens a path of a file system that is known to answer at once. `O_PATH` asks none.
    fn open_at_once(&self, path: &FilePath, flags: OFlags, mode: Mode) -> io::Result<OwnedFd> {
        let looks = flags.contains(OFlags::PATH);
        let kept = OFlags::PATH | OFlags::CLOEXEC | OFlags::DIRECTORY;
        let found = self.try_open(path, (flags | OFlags::PATH) & kept, Mode::empty())?;
        match self.devices.kind(&found) {
            Some(Kind::Memory) if !looks => Ok(self.try_open(path, flags, mode)?),
            Some(Kind::Memory | Kind::Disk) if looks => Ok(found),
            _ => Err(Errno::AGAIN.into()),
        }
    }

    /// Opens a regular file. A fifo or a device isn't waited for.
    fn open_file(&self, path: &FilePath, flags: OFlags) -> io::Result<(File, Stat)> {
        let flags = flags | OFlags::NONBLOCK | OFlags::NOCTTY;
        let created = if flags.contains(OFlags::CREATE) { 0o666 } else { 0 };
        let file = self.open_below(path, flags, Mode::from_raw_mode(created))?;
        let facts = fs::fstat(&file)?;
        if !is_type(&facts, FileType::RegularFile) {
            return Err(io::ErrorKind::InvalidInput.into());
        }
        Ok((File::from(rustix::fd::OwnedFd::from(file)), facts))
    }

    /// Opens a file to be read.
    pub fn read(&self, path: &FilePath) -> io::Result<(File, Stat)> {
        self.open_file(path, OFlags::RDONLY)
    }

    /// Opens a file to be written. Nothing of it is lost yet.
    pub fn write(&self, path: &FilePath) -> io::Result<(File, Stat)> {
        self.open_file(path, OFlags::WRONLY)
    }

    /// Opens a file to be written at its end.
    pub fn append(&self, path: &FilePath) -> io::Result<(File, Stat)> {
        self.open_file(path, OFlags::WRONLY | OFlags::APPEND)
    }

    /// Makes a file to be written. One that is there is opened, unless it is to be a new one.
    pub fn create(&self, path: &FilePath, new: New) -> io::Result<File> {
        let flags = match new {
            New::Written => OFlags::empty(),
            New::Appended => OFlags::APPEND,
            New::Unique => OFlags::EXCL,
        };
        Ok(self.open_file(path, OFlags::WRONLY | OFlags::CREATE | flags)?.0)
    }

    /// Whether a file may be made at a path, as far as that shows before.
    pub fn may_create(&self, path: &FilePath) -> io::Result<()> {
        let (parent, _) = self.parent(path)?;
        let access = fs::Access::WRITE_OK | fs::Access::EXEC_OK;
        Ok(fs::accessat(&parent, ".", access, AtFlags::empty())?)
    }

    /// A name in a directory that no file has, nor one that was chosen before.
    pub fn choose(&self, directory: &FilePath) -> io::Result<FilePath> {
        loop {
            let number = self.chosen.fetch_add(1, Ordering::Relaxed);
            let path = directory.join(format!("upload.{number}").as_bytes());
            match self.has_entry(&path) {
                Err(error) if error.kind() == io::ErrorKind::NotFound => {
                    return self.may_create(&path).map(|()| path);
                }
                found => found?,
            }
        }
    }

    /// The facts of what a path leads to.
    pub fn facts(&self, path: &FilePath) -> io::Result<Stat> {
        Ok(fs::fstat(self.open_below(path, OFlags::PATH, Mode::empty())?)?)
    }

    /// Opens a directory to be listed.
    pub fn list(&self, path: &FilePath) -> io::Result<(OwnedFd, Dir)> {
        let directory = self.open_below(path, OFlags::RDONLY | OFlags::DIRECTORY, Mode::empty())?;
        let entries = Dir::read_from(&directory)?;
        Ok((directory, entries))
    }

    /// Whether there is such a directory, which may be searched.
    pub fn enter(&self, path: &FilePath) -> io::Result<()> {
        let directory = self.open_below(path, OFlags::PATH | OFlags::DIRECTORY, Mode::empty())?;
        Ok(fs::accessat(&directory, ".", fs::Access::EXEC_OK, AtFlags::empty())?)
    }

    /// The directory that a path is in, and its name there, which is none of the folder itself.
    pub fn parent<'a>(&self, path: &'a FilePath) -> io::Result<(OwnedFd, &'a OsStr)> {
        let (name, parent) = path.names.split_last().ok_or(Errno::BUSY)?;
        let parent = FilePath { names: parent.to_vec() };
        let flags = OFlags::PATH | OFlags::DIRECTORY;
        Ok((self.open_below(&parent, flags, Mode::empty())?, OsStr::from_bytes(name)))
    }

    /// Whether a path has an entry, also that of a link which leads nowhere.
    pub fn has_entry(&self, path: &FilePath) -> io::Result<()> {
        let (parent, name) = self.parent(path)?;
        fs::statat(&parent, name, AtFlags::SYMLINK_NOFOLLOW)?;
        Ok(())
    }

    /// Deletes a file, or a link and not what it leads to.
    pub fn remove_file(&self, path: &FilePath) -> io::Result<()> {
        let (parent, name) = self.parent(path)?;
        Ok(fs::unlinkat(&parent, name, AtFlags::empty())?)
    }

    /// Removes an empty directory.
    pub fn remove_directory(&self, path: &FilePath) -> io::Result<()> {
        let (parent, name) = self.parent(path)?;
        Ok(fs::unlinkat(&parent, name, AtFlags::REMOVEDIR)?)
    }

    /// Makes a directory.
    pub fn make_directory(&self, path: &FilePath) -> io::Result<()> {
        let (parent, name) = self.parent(path)?;
        Ok(fs::mkdirat(&parent, name, Mode::from_raw_mode(0o777))?)
    }

    /// Renames what a path names, in the place of a file that has the new name.
    pub fn rename(&self, from: &FilePath, to: &FilePath) -> io::Result<()> {
        let ((from, old), (to, new)) = (self.parent(from)?, self.parent(to)?);
        Ok(fs::renameat(&from, old, &to, new)?)
    }

    /// Opens a regular file or a directory to change its facts: to do so takes no right to read it.
    fn open_facts(&self, path: &FilePath) -> io::Result<(OwnedFd, Stat)> {
        let file = self.open_below(path, OFlags::PATH, Mode::empty())?;
        let facts = fs::fstat(&file)?;
        if !is_type(&facts, FileType::RegularFile) && !is_type(&facts, FileType::Directory) {
            return Err(io::ErrorKind::InvalidInput.into());
        }
        Ok((file, facts))
    }

    /// Sets who may read, write and execute a file or a directory, but not the folder itself: its user
    /// might find nothing any more. A directory keeps its set-group-ID bit and its sticky bit.
    pub fn set_mode(&self, path: &FilePath, mode: u32) -> io::Result<()> {
        let (file, facts) = self.open_facts(path)?;
        let root = fs::fstat(&*self.root)?;
        if (facts.st_dev, facts.st_ino) == (root.st_dev, root.st_ino) {
            return Err(Errno::BUSY.into());
        }
        let kept = if is_type(&facts, FileType::Directory) { facts.st_mode & 0o7000 } else { 0 };
        let mode = Mode::from_raw_mode(mode & 0o777 | kept);
        Ok(fs::chmodat(fs::cwd(), link_to(&file), mode)?)
    }

    /// Sets when a file or a directory was modified, in seconds since 1970. Its facts then say which
    /// time its file system has for that.
    pub fn set_modified(&self, path: &FilePath, seconds: i64) -> io::Result<Stat> {
        let (file, _) = self.open_facts(path)?;
        let last_modification = fs::Timespec { tv_sec: seconds, tv_nsec: 0 };
        let last_access = fs::Timespec { tv_sec: 0, tv_nsec: fs::UTIME_OMIT };
        let times = Timestamps { last_access, last_modification };
        fs::utimensat(fs::cwd(), link_to(&file), &times, AtFlags::empty())?;
        Ok(fs::fstat(&file)?)
    }
}

/// A path that leads to this open file, also where it was opened by `O_PATH`, which `fchmod` and
/// `futimens` don't take. It needs `/proc`.
fn link_to(file: &OwnedFd) -> String {
    format!("/proc/self/fd/{}", file.as_raw_fd())
}

/// Whether these are the facts of a file of this type.
pub fn is_type(facts: &Stat, file_type: FileType) -> bool {
    FileType::from_raw_mode(facts.st_mode) == file_type
}

#[cfg(test)]
mod tests {
    use super::*;

    #[test]
    fn paths() {
        let directory = FilePath::default().join(b"a/b");
        for (named, path) in [
            ("c", "/a/b/c"),
            ("/c", "/c"),
            ("..", "/a"),
            ("../../../../c", "/c"),
            ("./c//d/", "/a/b/c/d"),
            ("/", "/"),
            ("...", "/a/b/..."),
        ] {
            assert_eq!(directory.join(named.as_bytes()).bytes(), path.as_bytes(), "{named}");
        }
    }
}
