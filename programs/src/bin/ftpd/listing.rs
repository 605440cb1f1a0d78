//! Listings: lines as those of `ls -l`, names, and facts (RFC 3659, section 7).
use crate::folder::{FilePath, Folder};
use crate::upload::BESIDE;
use crate::users::Rights;
use rustix::fs::{statat, AtFlags, Dir, FileType, Stat};
use rustix::io::OwnedFd;
use std::ffi::OsStr;
use std::fmt::Write;
use std::io;
use std::os::unix::ffi::OsStrExt;
use std::time::SystemTime;
use time::format_description::FormatItem;
use time::macros::format_description;
use time::{OffsetDateTime, PrimitiveDateTime};
use unftp_control::{list_line, FileKind, FileStatus};

/// As MDTM, MFMT and the fact `modify` write a time (RFC 3659, section 2.3).
const TIME_VALUE: &[FormatItem] = format_description!("[year][month][day][hour][minute][second]");
/// How many bytes of a listing are made at a time.
const PART: usize = 32 * 1024;

/// How a listing shows an entry.
#[derive(Clone, Debug, PartialEq, Eq)]
pub enum Form {
    /// As a line of `ls -l`: that of LIST.
    Long,
    /// As its name: that of NLST.
    Name,
    /// With these facts: that of MLSD and MLST.
    Facts(Vec<Fact>),
}

/// A fact of a file (RFC 3659, section 7.5).
#[derive(Clone, Copy, Debug, PartialEq, Eq)]
pub enum Fact {
    /// Whether it is a file or a directory.
    Type,
    /// How many bytes it has.
    Size,
    /// When it was modified.
    Modify,
    /// What the user may do with it.
    Perm,
    /// What it is the same file as, under any name.
    Unique,
}

impl Fact {
    /// All of them, in the order of a listing.
    pub const ALL: [Fact; 5] = [Fact::Type, Fact::Size, Fact::Modify, Fact::Perm, Fact::Unique];

    /// Its name.
    pub fn name(self) -> &'static str {
        match self {
            Fact::Type => "type",
            Fact::Size => "size",
            Fact::Modify => "modify",
            Fact::Perm => "perm",
            Fact::Unique => "unique",
        }
    }

    fn value(self, facts: &Stat, rights: Rights) -> Option<String> {
        let is_directory = is_directory(facts);
        match self {
            Fact::Type => Some(fact_type(facts).to_string()),
            Fact::Size => (!is_directory).then(|| facts.st_size.to_string()),
            Fact::Modify => time_value(facts),
            Fact::Perm => Some(permissions(is_directory, rights).to_string()),
            Fact::Unique => Some(format!("{:x}g{:x}", facts.st_dev, facts.st_ino)),
        }
    }
}

fn fact_type(facts: &Stat) -> &'static str {
    match FileType::from_raw_mode(facts.st_mode) {
        FileType::Directory => "dir",
        FileType::RegularFile => "file",
        FileType::Symlink => "OS.unix=symlink",
        _ => "OS.unix=special",
    }
}

fn permissions(is_directory: bool, rights: Rights) -> &'static str {
    match (is_directory, rights) {
        (true, Rights::Read) => "el",
        (true, Rights::Add) => "celm",
        (true, Rights::Upload) => "cem",
        (true, Rights::Write) => "cdeflmp",
        (false, Rights::Read | Rights::Add) => "r",
        (false, Rights::Upload) => "",
        (false, Rights::Write) => "adfrw",
    }
}

fn is_directory(facts: &Stat) -> bool {
    FileType::from_raw_mode(facts.st_mode) == FileType::Directory
}

/// When a file was modified.
fn modified(facts: &Stat) -> Option<OffsetDateTime> {
    OffsetDateTime::from_unix_timestamp(facts.st_mtime).ok()
}

/// A time as RFC 3659, section 2.3, has it, without its fraction of a second.
pub fn parsed_time(text: &str) -> Option<PrimitiveDateTime> {
    let (seconds, fraction) = text.split_once('.').unwrap_or((text, "0"));
    let are_digits = |part: &str| part.bytes().all(|byte| byte.is_ascii_digit());
    // of a year the parser would also take a sign
    if fraction.is_empty() || !are_digits(seconds) || !are_digits(fraction) {
        return None;
    }
    PrimitiveDateTime::parse(seconds, TIME_VALUE).ok()
}

/// The same as MDTM shows it.
pub fn time_value(facts: &Stat) -> Option<String> {
    modified(facts)?.format(TIME_VALUE).ok()
}

/// What a listing is made of.
enum Entries {
    /// The rest of a directory.
    Directory(OwnedFd, Dir),
    /// One entry, until it is listed.
    One(Option<Box<Stat>>),
}

/// A listing that is made in parts: a large directory takes no more memory than a small one.
pub struct Listing {
    folder: Folder,
    path: FilePath,
    form: Form,
    rights: Rights,
    now: SystemTime,
    entries: Entries,
    /// What is before each name of NLST, so that RETR takes it (RFC 959, section 4.1.3).
    prefix: Vec<u8>,
    /// Which names are listed, where not all are.
    pattern: Option<Vec<u8>>,
}

impl Listing {
    /// Of what a client names in a directory: the entries of another one, what else is there, or
    /// the entries whose names are of a pattern, as those of `mget *` are.
    pub fn new(
        folder: Folder,
        (directory, named): (&FilePath, &[u8]),
        form: Form,
        rights: Rights,
    ) -> io::Result<Listing> {
        let start = named.iter().rposition(|byte| *byte == b'/').map_or(0, |slash| slash + 1);
        let (before, last) = named.split_at(start);
        let path = directory.join(named);
        let facts = folder.facts(&path);
        // RFC 3659, section 2.2.2: the paths of MLSD are names
        let takes_pattern = facts.is_err() && !matches!(form, Form::Facts(_));
        let is_pattern = takes_pattern && last.iter().any(|byte| matches!(byte, b'*' | b'?'));
        let path = if is_pattern { directory.join(before) } else { path };
        let facts = if is_pattern { folder.facts(&path)? } else { facts? };
        let mut prefix = before.to_vec();
        let entries = if is_directory(&facts) {
            if !is_pattern && !last.is_empty() {
                prefix = [named, b"/"].concat();
            }
            let (directory, entries) = folder.list(&path)?;
            Entries::Directory(directory, entries)
        } else {
            Entries::One(Some(Box::new(facts)))
        };
        let (now, pattern) = (SystemTime::now(), is_pattern.then(|| last.to_vec()));
        Ok(Listing { folder, path, form, rights, now, entries, prefix, pattern })
    }

    /// Whether it lists the entries of a directory.
    pub fn is_of_directory(&self) -> bool {
        matches!(self.entries, Entries::Directory(..))
    }

    /// Appends its next part; none is left where it appends nothing.
    pub fn next_part(&mut self, part: &mut Vec<u8>) -> io::Result<()> {
        let end = part.len() + PART;
        while part.len() < end {
            let Some((name, facts)) = self.next_entry()? else { break };
            self.line(&name, facts.as_ref(), part);
        }
        Ok(())
    }

    /// Its next entry, with its facts where they are shown. One that is deleted meanwhile is left
    /// out, and so are an upload under way and a name with a line feed: no command can name that, and
    /// in a listing it would look like two.
    fn next_entry(&mut self) -> io::Result<Option<(Vec<u8>, Option<Stat>)>> {
        let (directory, entries) = match &mut self.entries {
            Entries::One(facts) => {
                let name = self.path.name().unwrap_or_default().to_vec();
                return Ok(facts.take().map(|facts| (name, Some(*facts))));
            }
            Entries::Directory(directory, entries) => (directory, entries),
        };
        while let Some(entry) = entries.read() {
            let entry = entry?;
            let name = entry.file_name().to_bytes();
            if matches!(name, b"." | b"..") || name.contains(&b'\n') || name.starts_with(BESIDE) {
                continue;
            }
            if self.pattern.as_ref().is_some_and(|pattern| !is_of(pattern, name)) {
                continue;
            }
            if self.form == Form::Name {
                return Ok(Some((name.to_vec(), None)));
            }
            let found = statat(&*directory, OsStr::from_bytes(name), AtFlags::SYMLINK_NOFOLLOW);
            if let Ok(facts) = found {
                let facts = followed(&self.folder, &self.path, name, facts);
                return Ok(Some((name.to_vec(), Some(facts))));
            }
        }
        Ok(None)
    }

    /// Appends the line of an entry.
    fn line(&self, name: &[u8], facts: Option<&Stat>, part: &mut Vec<u8>) {
        let before = match (&self.form, facts) {
            (Form::Name, _) | (_, None) => self.prefix.clone(),
            (Form::Long, Some(facts)) => long(facts, self.now),
            (Form::Facts(shown), Some(facts)) => fact_list(shown, facts, self.rights).into_bytes(),
        };
        part.extend_from_slice(&[&before, name, b"\r\n"].concat());
    }
}

/// Whether a name is of a pattern, in which `*` is any bytes and `?` any one. A dot at its start is
/// only of a pattern that has one there.
fn is_of(pattern: &[u8], name: &[u8]) -> bool {
    let (mut place, mut index, mut star) = (0, 0, None);
    if name.starts_with(b".") && !pattern.starts_with(b".") {
        return false;
    }
    while index < name.len() {
        match (pattern.get(place), star) {
            (Some(b'*'), _) => {
                place += 1;
                star = Some((place, index));
            }
            (Some(byte), _) if matches!(byte, b'?') || *byte == name[index] => {
                (place, index) = (place + 1, index + 1);
            }
            // The last star is one byte longer.
            (_, Some((after, start))) => {
                (place, index) = (after, start + 1);
                star = Some((place, index));
            }
            (_, None) => return false,
        }
    }
    pattern[place..].iter().all(|byte| *byte == b'*')
}

/// The facts of what a link leads to in the folder; else its own.
fn followed(folder: &Folder, directory: &FilePath, name: &[u8], facts: Stat) -> Stat {
    if FileType::from_raw_mode(facts.st_mode) == FileType::Symlink {
        folder.facts(&directory.join(name)).unwrap_or(facts)
    } else {
        facts
    }
}

/// The facts before a name, and a space.
pub fn fact_list(shown: &[Fact], facts: &Stat, rights: Rights) -> String {
    let mut list = String::new();
    for fact in shown {
        if let Some(value) = fact.value(facts, rights) {
            let _ = write!(list, "{}={value};", fact.name());
        }
    }
    list.push(' ');
    list
}

/// What `ls -l` has before a name, in UTC, and a space. The name is none of this line, since it may
/// have a carriage return.
fn long(facts: &Stat, now: SystemTime) -> Vec<u8> {
    let kind = match FileType::from_raw_mode(facts.st_mode) {
        FileType::Directory => FileKind::Directory,
        FileType::Symlink => FileKind::Link,
        FileType::Fifo => FileKind::Pipe,
        FileType::Socket => FileKind::Socket,
        FileType::CharacterDevice => FileKind::CharacterDevice,
        FileType::BlockDevice => FileKind::BlockDevice,
        _ => FileKind::File,
    };
    let status = FileStatus {
        kind,
        mode: facts.st_mode,
        links: u32::try_from(facts.st_nlink).unwrap_or(u32::MAX),
        // its numbers mean nothing to a client
        uid: 0,
        gid: 0,
        size: u64::try_from(facts.st_size).unwrap_or(0),
        modified: modified(facts).map(SystemTime::from),
    };
    let mut line = list_line(&status, now, b"").unwrap_or_default();
    line.truncate(line.len().saturating_sub(b"\r\n".len()));
    line
}

#[cfg(test)]
mod tests {
    use super::*;
    use std::time::Duration;

    #[test]
    fn patterns() {
        for (pattern, name, is_of_it) in [
            ("*", "a", true),
            ("*", ".a", false),
            (".*", ".a", true),
            ("*.txt", "a.txt.txt", true),
            ("*.txt", "a.txt.", false),
            ("a?c*", "abc", true),
            ("a?c", "ac", false),
            ("*a*a*a*b", "aaaaaaaaaaaaaaaaaaaaaaaaaaaaaaaaaaaaa", false),
            ("", "a", false),
        ] {
            assert_eq!(is_of(pattern.as_bytes(), name.as_bytes()), is_of_it, "{pattern} {name}");
        }
    }

    #[test]
    fn times() {
        for (text, is_time) in [
            ("20020717210715", true),
            ("20020717210715.25", true),
            ("20020717210715.", false),
            ("20020717210715.2x", false),
            ("20020717250715", false),
            ("2002071721071", false),
            ("-20020717210715", false),
            ("+20020717210715", false),
        ] {
            assert_eq!(parsed_time(text).is_some(), is_time, "{text}");
        }
    }

    #[test]
    fn files_are_listed_as_by_ls() -> io::Result<()> {
        let mut facts = rustix::fs::fstat(std::fs::File::open("/dev/null")?)?;
        (facts.st_mode, facts.st_nlink, facts.st_size) = (0o100644, 1, 1234);
        facts.st_mtime = 1_701_432_000;
        let noon = SystemTime::UNIX_EPOCH + Duration::from_secs(1_701_432_000);
        let half_a_year = Duration::from_secs(182 * 24 * 60 * 60);
        for (now, date) in [
            (noon, "Dec  1 12:00"),
            (noon + half_a_year - Duration::from_nanos(1), "Dec  1 12:00"),
            (noon + half_a_year, "Dec  1  2023"),
            (noon - Duration::from_nanos(1), "Dec  1  2023"),
        ] {
            let line = format!("-rw-r--r--   1 ftp      ftp              1234 {date} ");
            assert_eq!(long(&facts, now), line.as_bytes());
        }
        facts.st_mode = 0o40751;
        assert!(long(&facts, noon).starts_with(b"drwxr-x--x "));
        Ok(())
    }
}
