use crate::command::{Command, Keep};
use crate::error::Error;
use crate::event::Event;
use crate::lines::{Lines, LINE_LIMIT};
use crate::received::ReceivedReply;
use crate::reply::Reply;
use bytes::{Buf, BytesMut};
use std::error;
use std::fmt::{self, Display, Formatter};
use std::io;
use tokio_util::codec::{Decoder, Encoder};

/// The codec of a server's control connection: bytes become [`Event`]s, and each [`Reply`] becomes
/// its bytes. Use it with `Framed`, `FramedRead` or `FramedWrite`.
///
/// A line that is refused is an item and no error, so the lines after it are read as ever. The
/// pending bytes are read where they are, and only what a command holds is copied.
///
/// At the end of input, [`CodecError::Incomplete`] says how many bytes of a line came without its
/// end. They are still in the read buffer.
///
/// A server that turns to TLS makes a new codec for the new stream, and drops the read buffer of
/// the old one, or ends the connection where that has bytes. One that needs the parameter of TYPE,
/// which is in no command, uses [`FtpLineCodec`](crate::FtpLineCodec). The line feed of an ABOR may
/// come as urgent data; `examples/server.rs` takes it in line.
///
/// ```
/// use bytes::BytesMut;
/// use tokio_util::codec::{Decoder, Encoder};
/// use unftp_control::{Command, Event, FtpCodec, Refusal, Reply, ReplyCode};
///
/// let mut codec = FtpCodec::new();
/// let mut input = BytesMut::from("NOOP x\r\nNOOP\r\nQU");
/// let refused = Event::Refused(Refusal::InvalidCommand);
/// assert_eq!(codec.decode(&mut input)?, Some(refused));
/// assert_eq!(codec.decode(&mut input)?, Some(Event::Command(Command::Noop)));
/// assert_eq!(codec.decode(&mut input)?, None);
///
/// let mut output = BytesMut::new();
/// codec.encode(Reply::new(ReplyCode::COMMAND_OKAY, "OK"), &mut output)?;
/// assert_eq!(output, "200 OK\r\n");
/// # Ok::<(), unftp_control::CodecError>(())
/// ```
#[derive(Clone, Debug)]
pub struct FtpCodec {
    lines: Lines,
}

impl FtpCodec {
    /// For a connection whose lines may have [`LINE_LIMIT`] bytes.
    pub fn new() -> FtpCodec {
        FtpCodec::with_limit(LINE_LIMIT)
    }

    /// The same with another limit; 0 is none. A line of more bytes, its line feed counted, is
    /// refused when it ends, and its bytes are dropped before.
    pub fn with_limit(limit: usize) -> FtpCodec {
        FtpCodec { lines: Lines::new(limit) }
    }
}

impl Default for FtpCodec {
    fn default() -> FtpCodec {
        FtpCodec::new()
    }
}

impl Decoder for FtpCodec {
    type Item = Event<'static>;
    type Error = CodecError;

    #[inline]
    fn decode(&mut self, src: &mut BytesMut) -> Result<Option<Event<'static>>, CodecError> {
        if self.lines.passes_over(src) {
            return Ok(None);
        }
        decode_by_call(&mut self.lines, src)
    }

    fn decode_eof(&mut self, src: &mut BytesMut) -> Result<Option<Event<'static>>, CodecError> {
        match self.decode(src)? {
            None if !src.is_empty() || self.lines.is_skipping() => incomplete(src),
            event => Ok(event),
        }
    }
}

// a function of its own, so that the path without a call needs no stack for an event
#[inline(never)]
fn decode_by_call(
    lines: &mut Lines,
    src: &mut BytesMut,
) -> Result<Option<Event<'static>>, CodecError> {
    let taken = lines.take(src);
    let number = taken.number();
    if Command::is_word(number) {
        let used = taken.used();
        drop_front(src, used);
        return Command::word(number);
    }
    let Some(taken) = taken.with_room() else {
        return Err(Error::OutOfMemory.into());
    };
    let used = taken.used();
    let event = taken.event(Keep::OWNED);
    drop_front(src, used);
    Ok(event)
}

/// Drops so many bytes. A buffer that is used up has its room again at once: after `advance` it
/// would have to be reserved.
#[inline]
fn drop_front(src: &mut BytesMut, used: usize) {
    if used == src.len() {
        src.clear();
    } else {
        src.advance(used);
    }
}

/// Of `Reply` only, so that `flush` and `close` of a sink need no type. A
/// [`ProxyCodec`](crate::ProxyCodec) also sends replies that were received. A clone of a reply takes
/// no memory where its text is the program's own.
impl Encoder<Reply> for FtpCodec {
    type Error = CodecError;

    fn encode(&mut self, reply: Reply, dst: &mut BytesMut) -> Result<(), CodecError> {
        Ok(reply.encode(dst)?)
    }
}

pub(crate) fn incomplete<T>(src: &BytesMut) -> Result<T, CodecError> {
    Err(CodecError::Incomplete { left: src.len() })
}

/// Why a stream or a sink of a codec ends. Its text is that of the error that it holds, whose source
/// is its own.
#[derive(Debug)]
#[non_exhaustive]
pub enum CodecError {
    /// Reading or writing failed.
    Io(io::Error),
    /// A call of the library failed: out of memory, a reply that a client can't read, or a line
    /// that it can't send.
    Control(Error),
    /// The input ended within a line or a reply.
    Incomplete {
        /// How many of its bytes are in the read buffer: all that came, or 0 where the line is too
        /// long and its bytes were dropped.
        left: usize,
    },
    /// The server of an [`FtpProxy`](crate::FtpProxy) sent a reply that no line was owed.
    Unexpected(ReceivedReply<'static>),
}

impl Display for CodecError {
    fn fmt(&self, f: &mut Formatter<'_>) -> fmt::Result {
        match self {
            CodecError::Io(error) => error.fmt(f),
            CodecError::Control(error) => error.fmt(f),
            CodecError::Incomplete { left } => {
                write!(f, "the input ended within a line or a reply, after {left} bytes of it")
            }
            CodecError::Unexpected(reply) => {
                write!(f, "a reply that was not asked for: {reply}")
            }
        }
    }
}

impl error::Error for CodecError {
    fn source(&self) -> Option<&(dyn error::Error + 'static)> {
        match self {
            CodecError::Io(error) => error::Error::source(error),
            CodecError::Control(error) => error::Error::source(error),
            CodecError::Incomplete { .. } | CodecError::Unexpected(_) => None,
        }
    }
}

impl From<io::Error> for CodecError {
    fn from(error: io::Error) -> CodecError {
        CodecError::Io(error)
    }
}

impl From<Error> for CodecError {
    fn from(error: Error) -> CodecError {
        CodecError::Control(error)
    }
}
