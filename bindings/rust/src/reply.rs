use crate::address::{extended_port, host_port};
use crate::area::written;
use crate::code::ReplyCode;
use crate::error::Error;
use crate::ffi;
use crate::received::fmt_reply;
use std::borrow::Cow;
use std::fmt::{self, Debug, Formatter};
use std::iter;
use std::net::SocketAddrV4;

/// A reply of a server (RFC 959, section 4.2): a code, and a text of one line or of several, whose
/// bytes are in no particular encoding.
///
/// Whatever the text holds, a client that reads by RFC 959 finds exactly this reply in its bytes. A
/// line feed divides two lines, also one of a file name, and so never begins another reply. A
/// carriage return before it belongs to the line's end; any other is sent as it is. Two replies are
/// equal where their codes and their lines are.
///
/// ```
/// use unftp_control::{Reply, ReplyCode};
///
/// let okay = Reply::new(ReplyCode::COMMAND_OKAY, "OK");
/// assert_eq!(okay.to_bytes()?, b"200 OK\r\n");
///
/// let help = Reply::new(ReplyCode::HELP_MESSAGE, "Commands:\r\n NOOP\nEnd");
/// assert_eq!(help.to_bytes()?, b"214-Commands:\r\n NOOP\r\n214 End\r\n");
///
/// let features = Reply::with_lines(ReplyCode::SYSTEM_STATUS, ["Features:", " UTF8", "End"]);
/// assert_eq!(features.to_bytes()?, b"211-Features:\r\n UTF8\r\n211 End\r\n");
///
/// let named = Reply::of_bytes(ReplyCode::FILE_STATUS, &b"FILE: caf\xe9"[..]);
/// assert_eq!(named.to_bytes()?, b"213 FILE: caf\xe9\r\n");
/// # Ok::<(), unftp_control::Error>(())
/// ```
#[must_use]
#[derive(Clone)]
pub struct Reply {
    code: ReplyCode,
    text: Cow<'static, [u8]>,
}

impl Reply {
    /// A reply whose text is one line, or several that are divided by line feeds or CR LFs. A text of
    /// the program's own is not copied.
    pub fn new(code: ReplyCode, text: impl Into<Cow<'static, str>>) -> Reply {
        match text.into() {
            Cow::Borrowed(text) => Reply::of_bytes(code, text.as_bytes()),
            Cow::Owned(text) => Reply::of_bytes(code, text.into_bytes()),
        }
    }

    /// A reply whose text has these bytes, as that of [`Reply::new`]. They are sent as they are, also
    /// where they are not UTF-8.
    pub fn of_bytes(code: ReplyCode, text: impl Into<Cow<'static, [u8]>>) -> Reply {
        Reply { code, text: text.into() }
    }

    /// A reply of these lines, texts or bytes; of none, it is that of one empty line. A carriage
    /// return at the end of a line is part of it, and is sent.
    pub fn with_lines<L: AsRef<[u8]>>(
        code: ReplyCode,
        lines: impl IntoIterator<Item = L>,
    ) -> Reply {
        let mut text = Vec::new();
        for (at, line) in lines.into_iter().enumerate() {
            if at > 0 {
                // before a line feed only, a carriage return at the line's end would be dropped
                text.extend_from_slice(b"\r\n");
            }
            text.extend_from_slice(line.as_ref());
        }
        Reply::of_bytes(code, text)
    }

    /// The reply to FEAT of a server with these features, in their order, or of one without any (RFC
    /// 2389, section 3.2).
    ///
    /// ```
    /// use unftp_control::Reply;
    ///
    /// let reply = Reply::features(["REST STREAM", "UTF8"]);
    /// assert_eq!(reply.to_bytes()?, b"211-Features:\r\n REST STREAM\r\n UTF8\r\n211 End\r\n");
    /// # Ok::<(), unftp_control::Error>(())
    /// ```
    pub fn features<F: AsRef<str>>(features: impl IntoIterator<Item = F>) -> Reply {
        let listed = features.into_iter().map(|feature| format!("\n {}", feature.as_ref()));
        let listed: String = listed.collect();
        let text = match listed.is_empty() {
            true => "No features".to_string(),
            false => format!("Features:{listed}\nEnd"),
        };
        Reply::new(ReplyCode::SYSTEM_STATUS, text)
    }

    /// The reply to PWD where this is the working directory, and to MKD where it is the one that was
    /// made: the path as [`quoted_path`] has it (RFC 959, section 5.4).
    ///
    /// ```
    /// use unftp_control::Reply;
    ///
    /// assert_eq!(Reply::directory(b"/a\"b")?.to_bytes()?, b"257 \"/a\"\"b\"\r\n");
    /// # Ok::<(), unftp_control::Error>(())
    /// ```
    ///
    /// # Errors
    ///
    /// [`Error::OutOfMemory`].
    pub fn directory(path: &[u8]) -> Result<Reply, Error> {
        Ok(Reply::of_bytes(ReplyCode::DIR_CREATED, quoted_path(path)?))
    }

    /// The reply to PASV of a server that listens at this address (RFC 959, section 4.1.2).
    ///
    /// ```
    /// use unftp_control::Reply;
    ///
    /// let reply = Reply::passive("127.0.0.1:50000".parse()?)?;
    /// assert_eq!(reply.to_bytes()?, b"227 Entering Passive Mode (127,0,0,1,195,80).\r\n");
    /// # Ok::<(), Box<dyn std::error::Error>>(())
    /// ```
    ///
    /// # Errors
    ///
    /// [`Error::OutOfMemory`].
    pub fn passive(address: SocketAddrV4) -> Result<Reply, Error> {
        let text = format!("Entering Passive Mode ({}).", host_port(address)?);
        Ok(Reply::new(ReplyCode::ENTERING_PASSIVE_MODE, text))
    }

    /// The reply to EPSV of a server that listens at this port (RFC 2428, section 3).
    ///
    /// ```
    /// use unftp_control::Reply;
    ///
    /// let reply = Reply::extended_passive(6446)?;
    /// assert_eq!(reply.to_bytes()?, b"229 Entering Extended Passive Mode (|||6446|)\r\n");
    /// # Ok::<(), unftp_control::Error>(())
    /// ```
    ///
    /// # Errors
    ///
    /// [`Error::OutOfMemory`].
    pub fn extended_passive(port: u16) -> Result<Reply, Error> {
        let text = format!("Entering Extended Passive Mode {}", extended_port(port)?);
        Ok(Reply::new(ReplyCode::ENTERING_EXTENDED_PASSIVE_MODE, text))
    }

    /// Its code.
    pub fn code(&self) -> ReplyCode {
        self.code
    }

    /// Whether another reply to the same has to follow: its code is from 100 to 199 (RFC 959, section
    /// 4.2.1).
    #[cfg(feature = "tokio-util")]
    pub(crate) fn is_preliminary(&self) -> bool {
        matches!(self.code.get(), 100..=199)
    }

    /// Its lines, of which there is at least one.
    pub fn lines(&self) -> impl Iterator<Item = &[u8]> + '_ {
        let mut rest = Some(&*self.text);
        iter::from_fn(move || {
            let text = rest?;
            let end = text.iter().position(|byte| *byte == b'\n');
            rest = end.map(|end| &text[end + 1..]);
            let Some(end) = end else { return Some(text) };
            let line = &text[..end];
            Some(line.strip_suffix(b"\r").unwrap_or(line))
        })
    }

    /// The bytes that are sent. Where a line before the last begins with a digit, a space is put
    /// before it, so that no client takes it for the last one.
    ///
    /// # Errors
    ///
    /// [`Error::OutOfMemory`].
    pub fn to_bytes(&self) -> Result<Vec<u8>, Error> {
        written(self.room(), |out| self.write(out))
    }

    /// Appends the bytes that are sent, as `FtpCodec` does.
    ///
    /// # Errors
    ///
    /// [`Error::OutOfMemory`]; the buffer is then as it was.
    #[cfg(feature = "tokio-util")]
    pub fn encode(&self, buffer: &mut bytes::BytesMut) -> Result<(), Error> {
        let start = buffer.len();
        let mut room = self.room();
        loop {
            buffer.resize(start + room, 0);
            match self.write(&mut buffer[start..]) {
                (ffi::DONE, len) => {
                    buffer.truncate(start + len);
                    return Ok(());
                }
                (ffi::NO_ROOM, len) => room = len,
                (status, _) => {
                    buffer.truncate(start);
                    return Err(Error::of_status(status));
                }
            }
        }
    }

    /// How many bytes its bytes are at most.
    fn room(&self) -> usize {
        self.text.len() + 2 * self.text.iter().filter(|byte| **byte == b'\n').count() + 10
    }

    /// Writes its bytes to the start of the area: what `unftp_reply` returns, and the length.
    fn write(&self, out: &mut [u8]) -> (u32, usize) {
        ffi::reply(u32::from(self.code.get()), &self.text, out)
    }
}

impl PartialEq for Reply {
    fn eq(&self, other: &Reply) -> bool {
        self.code == other.code && self.lines().eq(other.lines())
    }
}

impl Eq for Reply {}

/// Shows each line as that of [`RawBytes`](crate::RawBytes): between double quotes, and escaped once.
impl Debug for Reply {
    fn fmt(&self, f: &mut Formatter<'_>) -> fmt::Result {
        fmt_reply(f, "Reply", self.code.get(), self.lines())
    }
}

/// The bytes of a reply of these lines: those of [`Reply::with_lines`].
///
/// ```
/// use unftp_control::{reply, ReplyCode};
///
/// assert_eq!(reply(ReplyCode::SYSTEM_TYPE, ["UNIX Type: L8"])?, b"215 UNIX Type: L8\r\n");
/// # Ok::<(), unftp_control::Error>(())
/// ```
///
/// # Errors
///
/// [`Error::OutOfMemory`].
pub fn reply<L: AsRef<[u8]>>(
    code: ReplyCode,
    lines: impl IntoIterator<Item = L>,
) -> Result<Vec<u8>, Error> {
    Reply::with_lines(code, lines).to_bytes()
}

/// The path between double quotes, with each double quote in it doubled, as the replies to PWD and
/// MKD have it (RFC 959, section 5.4 and appendix II). Its bytes are in no particular encoding.
///
/// ```
/// use unftp_control::{quoted_path, Reply, ReplyCode};
///
/// let path = quoted_path(b"/caf\xe9/a\"b")?;
/// assert_eq!(path, b"\"/caf\xe9/a\"\"b\"");
/// let reply = Reply::of_bytes(ReplyCode::DIR_CREATED, path);
/// assert_eq!(reply.to_bytes()?, b"257 \"/caf\xe9/a\"\"b\"\r\n");
/// # Ok::<(), unftp_control::Error>(())
/// ```
///
/// # Errors
///
/// [`Error::OutOfMemory`].
pub fn quoted_path(path: &[u8]) -> Result<Vec<u8>, Error> {
    written(path.len() + 2, |out| ffi::quoted_path(path, out))
}

/// What is at the start of the bytes that a client has received.
#[must_use]
#[derive(Clone, Copy, Debug, PartialEq, Eq)]
pub enum FrontReply {
    /// A reply.
    Whole {
        /// Its code: any three digits.
        code: u16,
        /// How many bytes it takes.
        used: usize,
    },
    /// Part of a reply, or nothing.
    Partial,
    /// A line that opens no reply.
    Malformed,
}

/// Finds the reply at the start of what a client has received (RFC 959, section 4.2). It takes no
/// memory, and searches from the start at each call; a [`ReplyDecoder`](crate::ReplyDecoder) goes
/// on where it was.
pub fn front_reply(bytes: &[u8]) -> FrontReply {
    let (status, reply) = ffi::front_reply(bytes);
    match (status, u16::try_from(reply.code)) {
        (ffi::DONE, Ok(code)) => FrontReply::Whole { code, used: reply.used },
        (ffi::MORE, _) => FrontReply::Partial,
        (ffi::MALFORMED, _) => FrontReply::Malformed,
        _ => {
            unreachable!("unftp_front_reply finds a code of three digits, part of a reply or none")
        }
    }
}
