use crate::area::written;
use crate::code::ReplyCode;
use crate::error::Error;
use crate::ffi;
use crate::reply::Reply;
use std::time::{SystemTime, UNIX_EPOCH};

/// How many bytes the longest line has besides the name: that of MLSD, and that of LIST.
const LONGEST_FACTS: usize = 112;
const LONGEST_LIST: usize = 80;
/// The seconds of the Unix epoch that the library writes, in the years from -9999 to 9999.
const FIRST: i64 = -377_705_023_201;
const LAST: i64 = 253_402_207_200;

/// What a file is: the letter of its line in LIST, and its type in MLSD (RFC 3659, section 7.5.1).
#[derive(Clone, Copy, Debug, PartialEq, Eq, Hash)]
pub enum FileKind {
    /// A regular file: `-`, `file`.
    File = 0,
    /// A directory: `d`, `dir`.
    Directory = 1,
    /// A symbolic link: `l`, `OS.unix=symlink`.
    Link = 2,
    /// A pipe: `p`, `OS.unix=pipe`.
    Pipe = 3,
    /// A socket: `s`, `OS.unix=socket`.
    Socket = 4,
    /// A device of characters, such as a terminal: `c`, `OS.unix=chr`.
    CharacterDevice = 5,
    /// A device of blocks, such as a disk: `b`, `OS.unix=blk`.
    BlockDevice = 6,
}

/// What a line of a listing shows of a file besides its name. On Unix it is made of a file's
/// [`Metadata`](std::fs::Metadata).
#[derive(Clone, Copy, Debug, PartialEq, Eq)]
pub struct FileStatus {
    /// What it is.
    pub kind: FileKind,
    /// Its permissions: the nine low bits. The others are not shown.
    pub mode: u32,
    /// How many names it has.
    pub links: u32,
    /// The user that it belongs to, or 0 where none is shown.
    pub uid: u32,
    /// The group that it belongs to, or 0 where none is shown.
    pub gid: u32,
    /// Its length in bytes.
    pub size: u64,
    /// When it was last modified, where that is known. A time before the year -9999, or after
    /// 30 December 9999, counts as unknown.
    pub modified: Option<SystemTime>,
}

#[cfg(unix)]
impl From<&std::fs::Metadata> for FileStatus {
    fn from(metadata: &std::fs::Metadata) -> FileStatus {
        use std::os::unix::fs::{FileTypeExt, MetadataExt};

        let kind = match metadata.file_type() {
            kind if kind.is_dir() => FileKind::Directory,
            kind if kind.is_symlink() => FileKind::Link,
            kind if kind.is_fifo() => FileKind::Pipe,
            kind if kind.is_socket() => FileKind::Socket,
            kind if kind.is_char_device() => FileKind::CharacterDevice,
            kind if kind.is_block_device() => FileKind::BlockDevice,
            _ => FileKind::File,
        };
        FileStatus {
            kind,
            mode: metadata.mode(),
            links: u32::try_from(metadata.nlink()).unwrap_or(u32::MAX),
            uid: metadata.uid(),
            gid: metadata.gid(),
            size: metadata.len(),
            modified: metadata.modified().ok(),
        }
    }
}

impl FileStatus {
    /// The struct of the header.
    fn given(&self) -> ffi::File {
        let modified = self.modified.map(second).filter(|second| (FIRST..=LAST).contains(second));
        ffi::File {
            size: self.size,
            modified: modified.unwrap_or(0),
            has_modified: u32::from(modified.is_some()),
            kind: self.kind as u32,
            mode: self.mode,
            links: self.links,
            uid: self.uid,
            gid: self.gid,
        }
    }
}

/// The line of a file in the reply to MLSD, with its end (RFC 3659, section 7.2): its facts, a space
/// and its name. The facts are its type and size; when it was modified, where that is known and its
/// year is not before 0, in UTC; and its user and group, where they are not 0.
///
/// ```
/// use std::time::{Duration, UNIX_EPOCH};
/// use unftp_control::{facts_line, FileKind, FileStatus};
///
/// let file = FileStatus {
///     kind: FileKind::File,
///     mode: 0o644,
///     links: 1,
///     uid: 1000,
///     gid: 0,
///     size: 1234,
///     modified: Some(UNIX_EPOCH + Duration::from_secs(1_701_432_000)),
/// };
/// let line = facts_line(&file, b"a.txt")?;
/// assert_eq!(line, b"type=file;size=1234;modify=20231201120000;unix.uid=1000; a.txt\r\n");
/// # Ok::<(), unftp_control::Error>(())
/// ```
///
/// # Errors
///
/// [`Error::InvalidName`] exactly where the name has a carriage return or a line feed, and else
/// [`Error::OutOfMemory`].
pub fn facts_line(file: &FileStatus, name: &[u8]) -> Result<Vec<u8>, Error> {
    let file = file.given();
    written(LONGEST_FACTS + name.len(), |out| ffi::facts_line(&file, name, out)).map_err(of_name)
}

/// The line of a file in the reply to LIST, with its end, in the form of `ls -l`, which clients
/// read. A number that exceeds its column is written whole, and `ftp` stands for a user and a group
/// of 0. Times are of UTC. A file that was modified less than 182 days before now, and not after it,
/// has the time of day, and any other the year; a year before 0 is 0000, and an unknown time that of
/// the Unix epoch. The name of a link may have ` -> ` and what it leads to after it.
///
/// ```
/// use std::time::{Duration, UNIX_EPOCH};
/// use unftp_control::{list_line, FileKind, FileStatus};
///
/// let now = UNIX_EPOCH + Duration::from_secs(1_701_432_000);
/// let file = FileStatus {
///     kind: FileKind::File,
///     mode: 0o644,
///     links: 1,
///     uid: 0,
///     gid: 0,
///     size: 1234,
///     modified: Some(now),
/// };
/// let line = list_line(&file, now, b"a.txt")?;
/// assert_eq!(line, b"-rw-r--r--   1 ftp      ftp              1234 Dec  1 12:00 a.txt\r\n");
/// let line = list_line(&file, now + Duration::from_secs(182 * 86400), b"a.txt")?;
/// assert_eq!(line, b"-rw-r--r--   1 ftp      ftp              1234 Dec  1  2023 a.txt\r\n");
/// # Ok::<(), unftp_control::Error>(())
/// ```
///
/// # Errors
///
/// [`Error::InvalidName`] exactly where the name has a carriage return or a line feed, and else
/// [`Error::OutOfMemory`].
pub fn list_line(file: &FileStatus, now: SystemTime, name: &[u8]) -> Result<Vec<u8>, Error> {
    let (file, now) = (file.given(), second(now).clamp(FIRST, LAST));
    written(LONGEST_LIST + name.len(), |out| ffi::list_line(&file, now, name, out)).map_err(of_name)
}

impl Reply {
    /// The reply to MLST: the facts of a file, as [`facts_line`] has them, and its path (RFC 3659,
    /// section 7.2).
    ///
    /// ```
    /// use unftp_control::{FileKind, FileStatus, Reply};
    ///
    /// let kind = FileKind::Directory;
    /// let directory =
    ///     FileStatus { kind, mode: 0o755, links: 2, uid: 0, gid: 0, size: 0, modified: None };
    /// let reply = Reply::facts(&directory, b"/pub")?;
    /// assert_eq!(reply.to_bytes()?, b"250- Listing\r\n type=dir;size=0; /pub\r\n250 End\r\n");
    /// # Ok::<(), unftp_control::Error>(())
    /// ```
    ///
    /// # Errors
    ///
    /// Those of [`facts_line`], of the path.
    pub fn facts(file: &FileStatus, path: &[u8]) -> Result<Reply, Error> {
        let line = [b" ", &*facts_line(file, path)?].concat();
        let line = line.strip_suffix(b"\r\n").unwrap_or(&line);
        Ok(Reply::with_lines(ReplyCode::FILE_ACTION_OKAY, [&b" Listing"[..], line, b"End"]))
    }
}

/// The second of the Unix epoch in which a time is.
fn second(time: SystemTime) -> i64 {
    match time.duration_since(UNIX_EPOCH) {
        Ok(after) => i64::try_from(after.as_secs()).unwrap_or(i64::MAX),
        Err(error) => {
            let before = error.duration();
            let seconds = before.as_secs().saturating_add(u64::from(before.subsec_nanos() > 0));
            i64::try_from(seconds).map_or(i64::MIN, |seconds| -seconds)
        }
    }
}

/// The error of a line of a file, whose only invalid argument here is the name.
fn of_name(error: Error) -> Error {
    match error {
        Error::NotPrintable => Error::InvalidName,
        error => error,
    }
}

#[cfg(test)]
mod tests {
    use super::*;
    use std::time::Duration;

    const FILE: FileStatus = FileStatus {
        kind: FileKind::File,
        mode: 0,
        links: 1,
        uid: 0,
        gid: 0,
        size: 0,
        modified: None,
    };

    /// The line of MLSD of a file of this time.
    fn facts_of(modified: Option<SystemTime>) -> Vec<u8> {
        facts_line(&FileStatus { modified, ..FILE }, b"a").unwrap()
    }

    #[test]
    fn times_are_rounded_down() {
        for (before, modify) in [(0, "19700101000000"), (1, "19691231235959")] {
            let time = UNIX_EPOCH - Duration::from_nanos(before);
            let line = format!("type=file;size=0;modify={modify}; a\r\n");
            assert_eq!(facts_of(Some(time)), line.as_bytes());
        }
        let almost = UNIX_EPOCH + Duration::from_nanos(999_999_999);
        assert_eq!(facts_of(Some(almost)), b"type=file;size=0;modify=19700101000000; a\r\n");
    }

    #[test]
    fn times_that_have_no_date_are_unknown() {
        let last = UNIX_EPOCH + Duration::from_secs(LAST.unsigned_abs());
        assert_eq!(facts_of(Some(last)), b"type=file;size=0;modify=99991230220000; a\r\n");
        let first = UNIX_EPOCH - Duration::from_secs(FIRST.unsigned_abs());
        for time in [last + Duration::from_secs(1), first - Duration::from_nanos(1)] {
            let file = FileStatus { modified: Some(time), ..FILE };
            assert_eq!(facts_line(&file, b"a"), facts_line(&FILE, b"a"));
            assert_eq!(list_line(&file, last, b"a"), list_line(&FILE, last, b"a"));
            assert!(list_line(&file, time, b"a").is_ok());
        }
    }

    #[test]
    fn the_longest_lines_have_their_room() {
        let file = FileStatus {
            kind: FileKind::Link,
            mode: 0o777,
            links: u32::MAX,
            uid: u32::MAX,
            gid: u32::MAX,
            size: u64::MAX,
            modified: Some(UNIX_EPOCH),
        };
        assert_eq!(facts_line(&file, b"").map(|line| line.len()), Ok(LONGEST_FACTS));
        assert_eq!(list_line(&file, UNIX_EPOCH, b"").map(|line| line.len()), Ok(LONGEST_LIST));
    }

    #[test]
    fn a_name_is_of_one_line() {
        for name in [&b"a\n"[..], b"\ra", b"a\r\nb"] {
            assert_eq!(facts_line(&FILE, name), Err(Error::InvalidName));
            assert_eq!(list_line(&FILE, UNIX_EPOCH, name), Err(Error::InvalidName));
            assert_eq!(Reply::facts(&FILE, name), Err(Error::InvalidName));
        }
        assert!(facts_line(&FILE, b"\0\xff \t").is_ok());
    }

    #[cfg(unix)]
    #[test]
    fn metadata_has_a_status() -> std::io::Result<()> {
        use std::os::unix::fs::MetadataExt;

        let directory = FileStatus::from(&std::fs::metadata(".")?);
        assert_eq!(directory.kind, FileKind::Directory);
        let metadata = std::fs::metadata("Cargo.toml")?;
        let file = FileStatus::from(&metadata);
        assert_eq!((file.kind, file.links), (FileKind::File, 1));
        assert_eq!((file.size, file.modified), (metadata.size(), metadata.modified().ok()));
        assert_eq!(FileStatus::from(&std::fs::metadata("/dev/null")?).kind, {
            FileKind::CharacterDevice
        });
        Ok(())
    }
}
