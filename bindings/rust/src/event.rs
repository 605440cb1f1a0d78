use crate::area::written;
use crate::command::Command;
use crate::ffi;
use std::error::Error;
use std::fmt::{self, Debug, Display, Formatter};

/// What a line is.
#[must_use]
#[derive(Clone, Debug, PartialEq, Eq)]
pub enum Event<'a> {
    /// A command.
    Command(Command<'a>),
    /// A line that is no command, and why. The lines after it are not touched by that.
    Refused(Refusal),
}

impl Event<'_> {
    /// What `unftp_next` returned for it.
    pub(crate) fn number(&self) -> u32 {
        match self {
            Event::Command(command) => command.number(),
            Event::Refused(refusal) => refusal.number(),
        }
    }

    /// The same event, whose texts and bytes are copied where they are borrowed.
    #[inline]
    pub fn into_owned(self) -> Event<'static> {
        match self {
            Event::Command(command) => Event::Command(command.into_owned()),
            Event::Refused(refusal) => Event::Refused(refusal),
        }
    }
}

/// A line of a client: what it is, and its bytes.
#[must_use]
#[derive(Clone)]
#[non_exhaustive]
pub struct Line<'a> {
    /// What it is.
    pub event: Event<'a>,
    /// Its bytes, its line feed among them: also those that its command ignores, as the `A` of
    /// `TYPE A`. There are none where the line is longer than the limit. Those of PASS hold the
    /// password.
    pub bytes: &'a [u8],
}

impl<'a> Line<'a> {
    /// The value of its parameter, as [`parameter`] has it: any bytes, also those that its command
    /// ignores. It is empty where the line has none, or is longer than the limit. That of PASS is
    /// the password.
    ///
    /// ```
    /// use unftp_control::Pending;
    ///
    /// let mut pending = Pending::new();
    /// pending.push(b"TYPE A\r\nRETR caf\xe9\r\n")?;
    /// let line = pending.next_line()?.expect("a line");
    /// assert_eq!(line.parameter()?, b"A");
    /// let line = pending.next_line()?.expect("a line");
    /// assert_eq!(line.parameter()?, b"caf\xe9");
    /// # Ok::<(), unftp_control::Error>(())
    /// ```
    ///
    /// # Errors
    ///
    /// Those of [`parameter`].
    pub fn parameter(&self) -> Result<Vec<u8>, crate::Error> {
        parameter(self.bytes)
    }

    /// The path of LIST or NLST, as [`list_path`] has it.
    ///
    /// # Errors
    ///
    /// Those of [`parameter`].
    pub fn list_path(&self) -> Result<Vec<u8>, crate::Error> {
        list_path(self.bytes)
    }
}

/// Shows the event, and nothing of the bytes: the line of PASS would show how long the password is.
impl Debug for Line<'_> {
    fn fmt(&self, f: &mut Formatter<'_>) -> fmt::Result {
        f.debug_struct("Line").field("event", &self.event).finish_non_exhaustive()
    }
}

/// The value of a line's parameter: the bytes that were sent, without the line's end. The parameter
/// follows the verb and the one byte that ends it, a space or a CR; a second space is part of it. A
/// CR that was sent as CR NUL (RFC 854), or as the first byte, is one CR.
///
/// SITE's parameter is a subcommand and a parameter of that, cut as a line is. For the value of the
/// latter pass the line without its first five bytes, SITE and the byte after it. A value has no
/// line end, and can't be cut so again.
///
/// ```
/// use unftp_control::parameter;
///
/// assert_eq!(parameter(b"RETR caf\xe9\r\n")?, b"caf\xe9");
/// assert_eq!(parameter(b"RETR a\r\0b\r\n")?, b"a\rb");
/// let line = b"SITE CHMOD 644 a\r\n";
/// assert_eq!(parameter(line)?, b"CHMOD 644 a");
/// assert_eq!(parameter(&line[5..])?, b"644 a");
/// # Ok::<(), unftp_control::Error>(())
/// ```
///
/// # Errors
///
/// [`Error::Refused`](crate::Error::Refused) with [`Refusal::InvalidEol`] exactly where the
/// parameter has no value: where it has no end, where a CR in it, other than its first byte, is
/// followed by neither LF nor NUL, or where CR NUL is followed directly by LF. A command that
/// ignores its parameter may come by such a line, as by `TYPE A\rb`. And
/// [`Error::OutOfMemory`](crate::Error::OutOfMemory).
pub fn parameter(line: &[u8]) -> Result<Vec<u8>, crate::Error> {
    written(line.len(), |out| ffi::parameter(line, out))
}

/// The path of LIST or NLST, the end of what [`parameter`] returns: what comes after words that begin
/// with a dash, each with one space after it. They are options, as those of `ls`; no RFC has them.
/// After the word `--` there is no other.
///
/// ```
/// use unftp_control::list_path;
///
/// assert_eq!(list_path(b"LIST -la caf\xe9\r\n")?, b"caf\xe9");
/// assert_eq!(list_path(b"NLST -l -- -x\r\n")?, b"-x");
/// assert_eq!(list_path(b"LIST -l\r\n")?, b"");
/// # Ok::<(), unftp_control::Error>(())
/// ```
///
/// # Errors
///
/// Those of [`parameter`].
pub fn list_path(line: &[u8]) -> Result<Vec<u8>, crate::Error> {
    written(line.len(), |out| ffi::list_path(line, out))
}

/// Why a line is no command.
#[derive(Clone, Copy, Debug, PartialEq, Eq, Hash)]
#[non_exhaustive]
pub enum Refusal {
    /// The verb doesn't take this parameter.
    InvalidCommand,
    /// The verb, the subcommand of SITE or the parameter of AUTH is not UTF-8.
    InvalidUtf8,
    /// The line's end is not CR LF or LF, or a CR in its parameter is followed by neither LF nor
    /// NUL.
    InvalidEol,
    /// The line is longer than the limit.
    LineTooLong,
}

impl Refusal {
    pub(crate) fn number(self) -> u32 {
        match self {
            Refusal::InvalidCommand => ffi::INVALID_COMMAND,
            Refusal::InvalidUtf8 => ffi::INVALID_UTF8,
            Refusal::InvalidEol => ffi::INVALID_EOL,
            Refusal::LineTooLong => ffi::LINE_TOO_LONG,
        }
    }

    pub(crate) fn of_status(status: u32) -> Option<Refusal> {
        Some(match status {
            ffi::INVALID_COMMAND => Refusal::InvalidCommand,
            ffi::INVALID_UTF8 => Refusal::InvalidUtf8,
            ffi::INVALID_EOL => Refusal::InvalidEol,
            ffi::LINE_TOO_LONG => Refusal::LineTooLong,
            _ => return None,
        })
    }
}

/// A text for people. [`Refusal::reply`] is what a server sends.
impl Display for Refusal {
    fn fmt(&self, f: &mut Formatter<'_>) -> fmt::Result {
        f.write_str(match self {
            Refusal::InvalidCommand => "invalid command",
            Refusal::InvalidUtf8 => "non-UTF-8 character in command",
            Refusal::InvalidEol => "invalid end of line",
            Refusal::LineTooLong => "line too long",
        })
    }
}

impl Error for Refusal {}
