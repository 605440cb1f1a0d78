use crate::area::written;
use crate::error::Error;
use crate::event::{Event, Line};
use crate::ffi;
use std::fmt::{self, Display, Formatter};

/// What a log shows of a line of a client: what [`log_line`] returns.
#[derive(Clone, Debug, PartialEq, Eq)]
#[non_exhaustive]
pub struct LogLine {
    /// The text, in printable ASCII without a line end.
    pub text: String,
    /// Whether a part of the line is not shown. A server may repeat it in its reply.
    ///
    /// It is true of a refused line; of PASS, ACCT and a verb that is not listed; of the arguments
    /// that a verb or a subcommand of SITE hides, also where there are none; of a text that SYST and
    /// HELP ignore; and of a parameter with an invalid line ending, which TYPE, EPSV and ALLO ignore.
    pub hides_part: bool,
}

impl Display for LogLine {
    fn fmt(&self, f: &mut Formatter<'_>) -> fmt::Result {
        f.pad(&self.text)
    }
}

impl From<LogLine> for String {
    fn from(line: LogLine) -> String {
        line.text
    }
}

/// What a log shows of a line of a client, in printable ASCII without a line end, and without
/// passwords and accounts. The event and the line are those that
/// [`Pending::next_line`](crate::Pending::next_line) returned together, and [`Line::log_line`]
/// takes both. Where the line is too long, nothing of it is looked at.
///
/// | a line | its log line |
/// |---|---|
/// | `xcwd a`, `BYE` | `CWD a`, `QUIT` |
/// | `type a`, `EPSV ALL`, `LIST -la x` | `TYPE a`, `EPSV ALL`, `LIST -la x` |
/// | `RETR a` and a byte 0xe9 | `RETR a\xe9` |
/// | `REST +5`, `auth tls` | `REST 5`, `AUTH TLS` |
/// | `site chmod 644 a` | `SITE CHMOD 644 a` |
/// | `SITE PSWD old new`, `SITE secret` | `SITE PSWD ***`, `SITE ***` |
/// | `PASS secret`, `PASS`, `lang` | `PASS ***`, `PASS ***`, `LANG ***` |
/// | `PSAS secret`, `hunter2` | `***` |
/// | `NOOP x` | `refused NOOP: Invalid command` |
///
/// A command is its canonical verb, and after a space the value of the line's parameter as the bytes
/// that were sent, with what is not printable escaped; CR NUL is one CR. Those whose value has a
/// type of its own, as AUTH and REST, have the value of their command, and SYST and HELP none. The
/// value of PASS and ACCT is `***`, also an empty one.
///
/// A verb with no rule of its own may be a mistyped PASS, or a password: it is `***`, unless it is a
/// word of the registry of FTP's commands (RFC 5797, section 3), ALGS (RFC 6384) or HOST (RFC 7151),
/// with `***` for its arguments, also where there are none. So it is with the subcommands of SITE,
/// but that CHMOD, IDLE, MD5, UMASK and UTIME show their arguments. The name of USER, paths and what
/// follows TYPE, EPSV and ALLO are shown, and so is a password that a client sends in their place,
/// or one that is itself a verb.
///
/// A refused line is `refused`, its verb where that has a rule or is such a word, and why:
/// `Invalid command`, `Non-UTF8 character while parsing`, `Invalid end-of-line`, or without a verb
/// `Line too long`. So a log shows of a password that it has an invalid line ending, and nothing
/// else of the parameter of a refused line.
///
/// ```
/// use unftp_control::{log_line, Pending};
///
/// let mut pending = Pending::new();
/// pending.push(b"PASS secret\r\nPSAS secret\r\ntype a\r\nNOOP x\r\n")?;
/// let mut log = Vec::new();
/// while let Some(line) = pending.next_line()? {
///     log.push(log_line(&line.event, line.bytes)?);
/// }
/// let texts: Vec<&str> = log.iter().map(|line| &*line.text).collect();
/// assert_eq!(texts, ["PASS ***", "***", "TYPE a", "refused NOOP: Invalid command"]);
/// assert!(log[0].hides_part && !log[2].hides_part);
/// # Ok::<(), unftp_control::Error>(())
/// ```
///
/// # Errors
///
/// [`Error::OutOfMemory`].
pub fn log_line(event: &Event<'_>, line: &[u8]) -> Result<LogLine, Error> {
    shown(event.number(), line)
}

/// The log line of a line for which `unftp_next` returned this number.
pub(crate) fn shown(number: u32, line: &[u8]) -> Result<LogLine, Error> {
    let mut hides_part = false;
    let bytes = written(line_room(line), |out| {
        let (status, len, hides) = ffi::log_line(number, line, out);
        hides_part = hides;
        (status, len)
    })?;
    let text = String::from_utf8(bytes).unwrap_or_else(|_| {
        unreachable!("`log_lines_are_logged`: each byte of a log line is printable ASCII")
    });
    Ok(LogLine { text, hides_part })
}

/// How many bytes the log line of a line most often takes at most: why it is refused takes 42, and
/// the escape of a byte that is not ASCII four.
fn line_room(line: &[u8]) -> usize {
    let shown = if line.is_ascii() { line.len() } else { 4 * line.len() };
    shown + 42
}

/// How many bytes an exchange most often takes at most. A CR LF within a reply is escaped.
fn exchange_room(line: &str, replies: &[u8]) -> usize {
    let line_feeds = replies.iter().filter(|byte| **byte == b'\n').count();
    line.len() + replies.len() + 2 * line_feeds + 16
}

/// What a log shows of an exchange, a line of a client and its replies, in printable ASCII without a
/// line end: the line, `->`, and the replies with ` | ` between two of them. A reply is its code,
/// and after a space its text, if any, escaped as by [`log_line`], with an escaped CR LF between two
/// lines.
///
/// The line is the text that [`log_line`] returned for it: keep that until the replies come, and not
/// the line, which may have a password. `None`, and an empty text, is no line: so the greeting is
/// logged. The replies are their bytes, one after the other: those of
/// [`ReceivedReply::bytes`](crate::ReceivedReply::bytes) and
/// [`Reply::to_bytes`](crate::Reply::to_bytes). There may be none. A server may repeat in a reply
/// what was hidden of a line, where [`LogLine::hides_part`]: to hide the text of a reply, pass its
/// three digits and a CR LF.
///
/// ```
/// use unftp_control::{log_exchange, ReplyDecoder};
///
/// assert_eq!(log_exchange(None, b"220 Ready\r\n")?, "-> 220 Ready");
///
/// let mut decoder = ReplyDecoder::new();
/// decoder.push(b"150 Opening\r\n226 Done\r\n")?;
/// let mut replies = Vec::new();
/// while let Some(reply) = decoder.next_reply()? {
///     replies.extend_from_slice(reply.bytes());
/// }
/// assert_eq!(log_exchange(Some("RETR a"), &replies)?, "RETR a -> 150 Opening | 226 Done");
///
/// assert_eq!(log_exchange(Some("***"), b"500\r\n")?, "*** -> 500");
/// # Ok::<(), unftp_control::Error>(())
/// ```
///
/// # Errors
///
/// [`Error::NotPrintable`] where a byte of the line is not printable ASCII, so that no line of a log
/// can be forged. Or else [`Error::IncompleteReply`] and [`Error::MalformedReply`], where the bytes
/// are not replies. [`Error::OutOfMemory`] may come in place of the last two.
pub fn log_exchange(line: Option<&str>, replies: &[u8]) -> Result<String, Error> {
    let line = line.unwrap_or_default();
    let expected = exchange_room(line, replies);
    let bytes = written(expected, |out| ffi::log_exchange(line, replies, out))?;
    Ok(String::from_utf8(bytes).unwrap_or_else(|_| {
        unreachable!("`lines_of_exchanges_are_printable`: each byte is printable ASCII")
    }))
}

impl Line<'_> {
    /// Its [`log_line`].
    ///
    /// # Errors
    ///
    /// [`Error::OutOfMemory`].
    pub fn log_line(&self) -> Result<LogLine, Error> {
        log_line(&self.event, self.bytes)
    }
}

#[cfg(test)]
mod tests {
    use super::*;
    use crate::pending::Pending;

    #[test]
    fn usual_texts_need_no_second_call() -> Result<(), Error> {
        for line in [
            &b"\r\n"[..],
            b"PASS secret\r\n",
            b"RETR caf\xc3\xa9\r\n",
            b"XCWD a\n",
            b"NOOP x\r\n",
            b"\xff\r\n",
            b"LANG a\rb\r\n",
            b"\xd0\xb0\xd0\xb1 \xff\r\n",
        ] {
            let mut pending = Pending::new();
            pending.push(line)?;
            let logged = pending.next_line()?.expect("a line").log_line()?.text;
            assert!(logged.len() <= line_room(line), "{logged}");
        }
        let feat = b"211-Features:\r\n SIZE\r\n MDTM\r\n UTF8\r\n TVFS\r\n EPSV\r\n211 End\r\n";
        for replies in [&b""[..], b"220 Ready\r\n", b"150 a\r\n226 b\r\n", b"257 \"/a\"\r\n", feat]
        {
            let logged = log_exchange(Some("PWD"), replies)?;
            assert!(logged.len() <= exchange_room("PWD", replies), "{logged}");
        }
        Ok(())
    }
}
