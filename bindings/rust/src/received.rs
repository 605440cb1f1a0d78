use crate::bytes::RawBytes;
use crate::ffi;
use std::borrow::Cow;
use std::fmt::{self, Debug, Display, Formatter, Write};

/// A reply that a client has received: a code, and its bytes as they came.
#[derive(Clone, PartialEq, Eq)]
pub struct ReceivedReply<'a> {
    code: u16,
    bytes: Cow<'a, [u8]>,
}

impl<'a> ReceivedReply<'a> {
    /// The reply that has exactly these bytes.
    pub(crate) fn borrowed(code: u16, bytes: &'a [u8]) -> ReceivedReply<'a> {
        ReceivedReply { code, bytes: Cow::Borrowed(bytes) }
    }
}

impl ReceivedReply<'_> {
    /// Its code: any three digits, and so at most 999.
    pub fn code(&self) -> u16 {
        self.code
    }

    /// Whether another reply to the same follows: its code is from 100 to 199 (RFC 959, section
    /// 4.2.1).
    pub fn is_preliminary(&self) -> bool {
        matches!(self.code, 100..=199)
    }

    /// All its bytes as they came, with the codes and the line ends, also those that are not UTF-8.
    /// A program that passes the reply on sends these, and a client reads the same code and the
    /// same lines in them.
    pub fn bytes(&self) -> &[u8] {
        &self.bytes
    }

    /// Its lines, of which there is at least one, without their CR LF (RFC 959, section 4.2). The
    /// first line and the last are what comes after their code and the one byte that follows it;
    /// those between are as they came, with a space that a server has put before them. A line ends
    /// only at CR LF, and may have any bytes.
    ///
    /// ```
    /// use unftp_control::ReplyDecoder;
    ///
    /// let mut decoder = ReplyDecoder::new();
    /// decoder.push(b"211-Features:\r\n UTF8\r\n211 End\r\n")?;
    /// let reply = decoder.next_reply()?.expect("it is complete");
    /// let lines: Vec<&[u8]> = reply.lines().collect();
    /// assert_eq!(lines, [&b"Features:"[..], b" UTF8", b"End"]);
    /// # Ok::<(), unftp_control::Error>(())
    /// ```
    pub fn lines(&self) -> impl Iterator<Item = &[u8]> + '_ {
        let mut line = ffi::ReplyLine::default();
        std::iter::from_fn(move || {
            let found = ffi::next_reply_line(&self.bytes, &mut line) == ffi::DONE;
            found.then(|| &self.bytes[line.text_at..line.text_at + line.text_len])
        })
    }

    /// The same reply, copied where it is borrowed.
    pub fn into_owned(self) -> ReceivedReply<'static> {
        ReceivedReply { code: self.code, bytes: Cow::Owned(self.bytes.into_owned()) }
    }
}

/// The code and the lines, with a line feed between each two, for a terminal: each control character
/// is `?`, and what is not UTF-8 is U+FFFD.
///
/// ```
/// use unftp_control::ReplyDecoder;
///
/// let mut decoder = ReplyDecoder::new();
/// decoder.push(b"220-Hello\r\n\x1b[2J\r\n220 caf\xe9\r\n")?;
/// let reply = decoder.next_reply()?.expect("it is complete");
/// assert_eq!(reply.to_string(), "220-Hello\n?[2J\n220 caf\u{fffd}");
/// # Ok::<(), unftp_control::Error>(())
/// ```
impl Display for ReceivedReply<'_> {
    fn fmt(&self, f: &mut Formatter<'_>) -> fmt::Result {
        let text = String::from_utf8_lossy(self.bytes.strip_suffix(b"\r\n").unwrap_or(&self.bytes));
        for (at, line) in text.split("\r\n").enumerate() {
            if at > 0 {
                f.write_char('\n')?;
            }
            f.write_str(&line.replace(char::is_control, "?"))?;
        }
        Ok(())
    }
}

/// Shows each line as that of [`RawBytes`]: between double quotes, and escaped once.
impl Debug for ReceivedReply<'_> {
    fn fmt(&self, f: &mut Formatter<'_>) -> fmt::Result {
        fmt_reply(f, "ReceivedReply", self.code, self.lines())
    }
}

/// Shows a reply by its code and its lines.
pub(crate) fn fmt_reply<'a>(
    f: &mut Formatter<'_>,
    name: &str,
    code: u16,
    lines: impl Iterator<Item = &'a [u8]>,
) -> fmt::Result {
    let lines: Vec<RawBytes<'_>> = lines.map(RawBytes::from).collect();
    f.debug_struct(name).field("code", &code).field("lines", &lines).finish()
}
