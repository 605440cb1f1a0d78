use crate::canonical::forward;
use crate::client::{ClientReply, Dialogue, ReplyValue, SendError};
use crate::code::ReplyCode;
use crate::codec::{incomplete, CodecError};
use crate::command::{push_value, Command};
use crate::error::Error;
use crate::received::ReceivedReply;
use crate::reply_decoder::{Search, REPLY_LIMIT};
use bytes::{Buf, BytesMut};
use std::borrow::Cow;
use std::error;
use std::fmt::{self, Debug, Display, Formatter};
use std::io;
use std::mem;
use tokio_util::codec::{Decoder, Encoder};

/// The codec of a client's control connection: bytes become replies, each with what it is to, as of
/// a [`Client`](crate::Client), whose limits it has too: while a transfer is under way, send only
/// ABOR and QUIT, unless the server keeps the order. A command becomes its
/// [line](Command::to_line), and a line, with its line end, becomes the bytes of [`forward`]. So a
/// line that is no command is never sent, nor are two lines in one, as a file name with a line feed
/// would make. A bare CR in the parameter of a line is sent as it is: for a server that ends a line
/// at one, refuse such a line first. A [`RawLine`] is sent as it is, also one that is no command.
///
/// Reading and writing are one codec's, also after `Framed::split`. A client that turns to TLS
/// takes the codec along ([`tls_agreed`](FtpClientCodec::tls_agreed)): the server sends no second
/// greeting, for which a new one would wait.
///
/// A reply that is malformed or too long is an error, since nothing says where the next one begins.
///
/// The place of a command is what [`sent`](FtpClientCodec::sent) was before it: under `Framed`,
/// `server.codec().sent()`. An [`FtpClient`](crate::FtpClient) is a client over this codec that
/// sends one command after the other, and also transfers.
///
/// As there are several encoders, `flush` and `close` of a sink want the type of one, any of them:
///
/// ```
/// use futures_util::SinkExt;
/// use tokio::io::{AsyncRead, AsyncWrite};
/// use tokio_util::codec::Framed;
/// use unftp_control::{CodecError, Command, FtpClientCodec, RawLine};
///
/// async fn send_two<S: AsyncRead + AsyncWrite + Unpin>(
///     server: &mut Framed<S, FtpClientCodec>,
/// ) -> Result<(), CodecError> {
///     server.feed(Command::Feat).await?;
///     server.feed(RawLine(b"OPTS MLST size;\r\n")).await?;
///     SinkExt::<RawLine<'_>>::flush(server).await
/// }
/// ```
///
/// ```
/// use bytes::BytesMut;
/// use tokio_util::codec::{Decoder, Encoder};
/// use unftp_control::{FtpClientCodec, To};
///
/// let mut codec = FtpClientCodec::new();
/// let mut output = BytesMut::new();
/// codec.encode(b"RETR a.txt\r\n", &mut output)?;
/// assert_eq!(output, "RETR a.txt\r\n");
/// assert!(codec.encode(b"RETR a\nDELE b\r\n", &mut output).is_err());
///
/// let mut input = BytesMut::from("220 Ready\r\n150 Opening\r\n226 Do");
/// assert_eq!(codec.decode(&mut input)?.map(|reply| reply.to), Some(To::Greeting));
/// let reply = codec.decode(&mut input)?.expect("a reply");
/// assert_eq!((reply.to, reply.reply.code()), (To::Command(0), 150));
/// assert_eq!(codec.decode(&mut input)?, None);
/// # Ok::<(), unftp_control::CodecError>(())
/// ```
///
/// # Values
///
/// A codec may keep a value of the caller's for each command, as a [`Client`](crate::Client) does. A
/// sink then takes pairs of a line and its value, and gives the value back in the [`SinkError`] of a
/// line that is not sent. An item of a stream can't borrow, so it has the command's place, and
/// [`reply_value`](FtpClientCodec::reply_value) the value.
///
/// ```
/// use bytes::BytesMut;
/// use tokio_util::codec::{Decoder, Encoder};
/// use unftp_control::{CodecError, Command, FtpClientCodec, ReplyValue};
///
/// let (mut codec, mut output) = (FtpClientCodec::with_values(), BytesMut::new());
/// codec.encode((Command::Pwd, "where"), &mut output)?;
/// codec.encode((b"RETR a.txt\r\n", "a.txt"), &mut output)?;
///
/// let mut input = BytesMut::from("220 Ready\r\n257 \"/\"\r\n150 Opening\r\n");
/// codec.decode(&mut input)?.expect("the greeting");
/// assert_eq!(codec.reply_value(), None);
/// codec.decode(&mut input)?.expect("the reply to PWD");
/// assert_eq!(codec.reply_value(), Some(ReplyValue::Final("where")));
/// codec.decode(&mut input)?.expect("a reply to RETR");
/// assert_eq!(codec.reply_value(), Some(ReplyValue::Preliminary(&mut "a.txt")));
/// # Ok::<(), CodecError>(())
/// ```
///
/// # A proxy
///
/// [`take_line`](FtpClientCodec::take_line) and [`answer`](FtpClientCodec::answer) keep the order of
/// a proxy under `Framed`, as those of a [`Client`](crate::Client) do.
#[derive(Clone, Debug)]
pub struct FtpClientCodec<T = ()> {
    search: Search,
    dialogue: Dialogue<T>,
    last: LastReply<T>,
}

/// What the last reply was, to the command whose value is asked for.
#[derive(Clone, Debug)]
enum LastReply<T> {
    /// It was to no command, or the value is taken.
    NoValue,
    /// It was preliminary: the dialogue has the value.
    Preliminary,
    Final(T),
}

/// A codec that keeps no values.
impl FtpClientCodec {
    /// For a connection whose replies may have [`REPLY_LIMIT`] bytes.
    pub fn new() -> FtpClientCodec {
        FtpClientCodec::with_values()
    }

    /// The same with another limit; 0 is none.
    pub fn with_limit(limit: usize) -> FtpClientCodec {
        FtpClientCodec::with_limit_and_values(limit)
    }
}

impl<T> FtpClientCodec<T> {
    /// As [`new`](FtpClientCodec::new), of a codec that keeps a value for each command.
    pub fn with_values() -> FtpClientCodec<T> {
        FtpClientCodec::with_limit_and_values(REPLY_LIMIT)
    }

    /// As [`with_limit`](FtpClientCodec::with_limit), of a codec that keeps a value for each
    /// command.
    pub fn with_limit_and_values(limit: usize) -> FtpClientCodec<T> {
        FtpClientCodec {
            search: Search::new(limit),
            dialogue: Dialogue::new(),
            last: LastReply::NoValue,
        }
    }

    /// The value of the command to which the last reply is: at a preliminary reply it is borrowed,
    /// and at the final one it is the caller's again. `None` where that reply is to no command, and
    /// where a value was given back already. The next reply drops one that was not.
    pub fn reply_value(&mut self) -> Option<ReplyValue<'_, T>> {
        match mem::replace(&mut self.last, LastReply::NoValue) {
            LastReply::NoValue => None,
            LastReply::Preliminary => {
                self.last = LastReply::Preliminary;
                self.dialogue.values_mut().next().map(ReplyValue::Preliminary)
            }
            LastReply::Final(value) => Some(ReplyValue::Final(value)),
        }
    }

    /// The values of the commands that are owed their final reply, in the order in which they were
    /// sent.
    pub fn values(&self) -> impl DoubleEndedIterator<Item = &T> + ExactSizeIterator + '_ {
        self.dialogue.values()
    }

    /// The same values, to change them.
    pub fn values_mut(
        &mut self,
    ) -> impl DoubleEndedIterator<Item = &mut T> + ExactSizeIterator + '_ {
        self.dialogue.values_mut()
    }

    /// The same values, at the end of the connection.
    pub fn into_values(self) -> impl DoubleEndedIterator<Item = T> + ExactSizeIterator {
        self.dialogue.into_values()
    }

    /// Whether [`take_line`](FtpClientCodec::take_line) would return true.
    pub fn may_take_line(&self) -> bool {
        self.dialogue.may_take_line()
    }

    /// Notes that a proxy takes the next line of its own client, and returns true, as
    /// [`Client::take_line`](crate::Client::take_line). It returns false, and nothing changes, where
    /// the line has to wait.
    #[must_use = "where it is false, the line is not taken"]
    pub fn take_line(&mut self) -> bool {
        self.dialogue.take_line()
    }

    /// Whether [`answer`](FtpClientCodec::answer) would return true.
    pub fn may_answer(&self, code: ReplyCode) -> bool {
        self.dialogue.may_answer(code)
    }

    /// Notes that a proxy answers the line that it has taken, and returns true, as
    /// [`Client::answer`](crate::Client::answer): its client then has to get that reply. It returns
    /// false, and nothing changes, where the answer has to wait, or the code is preliminary.
    #[must_use = "where it is false, the client is not to get the reply yet"]
    pub fn answer(&mut self, code: ReplyCode) -> bool {
        self.dialogue.answer(code)
    }

    /// Whether the greeting is complete: its final reply was taken, whatever its code.
    pub fn is_greeted(&self) -> bool {
        self.dialogue.is_greeted()
    }

    /// How many commands were sent: the place of the next one.
    pub fn sent(&self) -> u64 {
        self.dialogue.sent()
    }

    /// How many commands are owed their final reply.
    pub fn owed(&self) -> u64 {
        self.dialogue.owed()
    }

    /// Whether TLS may begin, where these bytes are in the read buffer: the last reply was a 234 to
    /// the last command, which asks for TLS, and no byte is pending (RFC 4217, section 4). Where
    /// bytes are pending after that 234, end the connection.
    pub fn tls_agreed(&self, read_buffer: &[u8]) -> bool {
        self.dialogue.may_begin_tls(read_buffer.len())
    }

    /// Appends a line, and notes that it is sent.
    fn append(
        &mut self,
        line: &impl ToLine,
        value: T,
        dst: &mut BytesMut,
    ) -> Result<(), SendError<T>> {
        let line = match line.to_line() {
            Ok(line) => line,
            Err(error) => return Err(SendError { error, value }),
        };
        self.dialogue.line(&line, value)?;
        dst.extend_from_slice(&line);
        Ok(())
    }
}

impl Default for FtpClientCodec {
    fn default() -> FtpClientCodec {
        FtpClientCodec::new()
    }
}

impl<T> Decoder for FtpClientCodec<T> {
    type Item = ClientReply<'static>;
    type Error = CodecError;

    fn decode(&mut self, src: &mut BytesMut) -> Result<Option<Self::Item>, CodecError> {
        let Some(reply) = self.search.take(src)?.map(ReceivedReply::into_owned) else {
            return Ok(None);
        };
        src.advance(reply.bytes().len());
        self.last = LastReply::NoValue;
        let to = self.dialogue.reply(reply.code()).map(|(place, value)| {
            self.last = match value {
                ReplyValue::Preliminary(_) => LastReply::Preliminary,
                ReplyValue::Final(value) => LastReply::Final(value),
            };
            place
        });
        Ok(Some(ClientReply { to, reply }))
    }

    fn decode_eof(&mut self, src: &mut BytesMut) -> Result<Option<Self::Item>, CodecError> {
        match self.decode(src)? {
            None if !src.is_empty() => incomplete(src),
            reply => Ok(reply),
        }
    }
}

impl<L: ToLine> Encoder<L> for FtpClientCodec {
    type Error = CodecError;

    fn encode(&mut self, line: L, dst: &mut BytesMut) -> Result<(), CodecError> {
        Ok(self.append(&line, (), dst).map_err(Error::from)?)
    }
}

/// Sends a line with its value.
impl<L: ToLine, T> Encoder<(L, T)> for FtpClientCodec<T> {
    type Error = SinkError<T>;

    fn encode(&mut self, (line, value): (L, T), dst: &mut BytesMut) -> Result<(), SinkError<T>> {
        self.append(&line, value, dst).map_err(SinkError::Unsent)
    }
}

/// What [`FtpClientCodec`] sends as one line. Whatever implements this, bytes that are not one line
/// are refused with [`Error::NotALine`], and nothing is sent.
pub trait ToLine {
    /// The line, with its line end.
    ///
    /// # Errors
    ///
    /// Where there is no such line: that of a [`Command`] may be [`Error::NoLine`], and that of
    /// bytes is one of [`forward`].
    fn to_line(&self) -> Result<Cow<'_, [u8]>, Error>;
}

/// Its [canonical line](Command::to_line).
impl ToLine for Command<'_> {
    fn to_line(&self) -> Result<Cow<'_, [u8]>, Error> {
        Command::to_line(self).map(Cow::Owned)
    }
}

/// What [`forward`] writes for the line.
impl ToLine for [u8] {
    fn to_line(&self) -> Result<Cow<'_, [u8]>, Error> {
        Ok(Cow::Owned(forward(self)?.bytes))
    }
}

/// As that of a slice.
impl<const N: usize> ToLine for [u8; N] {
    fn to_line(&self) -> Result<Cow<'_, [u8]>, Error> {
        self[..].to_line()
    }
}

/// As that of a slice.
impl ToLine for Vec<u8> {
    fn to_line(&self) -> Result<Cow<'_, [u8]>, Error> {
        self[..].to_line()
    }
}

impl<L: ToLine + ?Sized> ToLine for &L {
    fn to_line(&self) -> Result<Cow<'_, [u8]>, Error> {
        (**self).to_line()
    }
}

/// The line as it is.
impl ToLine for RawLine<'_> {
    fn to_line(&self) -> Result<Cow<'_, [u8]>, Error> {
        Ok(Cow::Borrowed(self.0))
    }
}

/// The line of a verb and a name of any bytes: for a name that is not UTF-8, which no [`Command`]
/// has. It is what [`forward`] writes for that line, in which each CR of the name is CR NUL (RFC
/// 854). An empty name is none. A name with a line feed is refused with [`Error::NotALine`].
///
/// ```
/// use unftp_control::{NameLine, ToLine};
///
/// assert_eq!(NameLine("RETR", b"caf\xe9").to_line()?, &b"RETR caf\xe9\r\n"[..]);
/// assert_eq!(NameLine("LIST", b"").to_line()?, &b"LIST\r\n"[..]);
/// assert!(NameLine("RETR", b"a\r\nDELE b").to_line().is_err());
/// # Ok::<(), unftp_control::Error>(())
/// ```
#[derive(Clone, Copy)]
pub struct NameLine<'a>(pub &'a str, pub &'a [u8]);

/// Shows nothing of the line, as that of [`RawLine`].
impl Debug for NameLine<'_> {
    fn fmt(&self, f: &mut Formatter<'_>) -> fmt::Result {
        f.debug_struct("NameLine").finish_non_exhaustive()
    }
}

impl ToLine for NameLine<'_> {
    fn to_line(&self) -> Result<Cow<'_, [u8]>, Error> {
        let mut line = self.0.as_bytes().to_vec();
        if !self.1.is_empty() {
            push_value(&mut line, self.1);
        }
        line.extend_from_slice(b"\r\n");
        Ok(Cow::Owned(forward(&line)?.bytes))
    }
}

/// A line, with its line end, that [`FtpClientCodec`] sends as it is, as
/// [`Client::send_line`](crate::Client::send_line): for what no [`Command`] says and [`forward`]
/// doesn't keep, as `OPTS MLST size;` or `MODE Z`. It is refused with [`Error::NotALine`] where no
/// line feed is its last byte, or one comes before it.
#[derive(Clone, Copy)]
pub struct RawLine<'a>(pub &'a [u8]);

/// Shows nothing of the line, since it may be that of PASS.
impl Debug for RawLine<'_> {
    fn fmt(&self, f: &mut Formatter<'_>) -> fmt::Result {
        f.debug_struct("RawLine").finish_non_exhaustive()
    }
}

/// Why a sink of lines with values ends, or doesn't send a line. Its text is that of the error that
/// it holds. `?` turns it into the [`CodecError`], without the value.
#[non_exhaustive]
pub enum SinkError<T> {
    /// Writing failed.
    Io(io::Error),
    /// This line was not sent, and nothing is owed for it: its value is given back. The connection
    /// may go on.
    Unsent(SendError<T>),
}

/// Shows the error, and nothing of the value.
impl<T> Debug for SinkError<T> {
    fn fmt(&self, f: &mut Formatter<'_>) -> fmt::Result {
        match self {
            SinkError::Io(error) => f.debug_tuple("Io").field(error).finish(),
            SinkError::Unsent(unsent) => f.debug_tuple("Unsent").field(unsent).finish(),
        }
    }
}

impl<T> Display for SinkError<T> {
    fn fmt(&self, f: &mut Formatter<'_>) -> fmt::Result {
        match self {
            SinkError::Io(error) => Display::fmt(error, f),
            SinkError::Unsent(unsent) => Display::fmt(unsent, f),
        }
    }
}

impl<T> error::Error for SinkError<T> {
    fn source(&self) -> Option<&(dyn error::Error + 'static)> {
        match self {
            SinkError::Io(error) => error.source(),
            SinkError::Unsent(_) => None,
        }
    }
}

impl<T> From<io::Error> for SinkError<T> {
    fn from(error: io::Error) -> SinkError<T> {
        SinkError::Io(error)
    }
}

impl<T> From<SinkError<T>> for CodecError {
    fn from(error: SinkError<T>) -> CodecError {
        match error {
            SinkError::Io(error) => CodecError::Io(error),
            SinkError::Unsent(unsent) => CodecError::Control(unsent.error),
        }
    }
}
