use crate::codec::{incomplete, CodecError};
use crate::command::Keep;
use crate::error::Error;
use crate::event::{list_path, parameter, Event};
use crate::lines::{Lines, LINE_LIMIT};
use crate::log::{log_line, LogLine};
use crate::reply::Reply;
use bytes::{Buf, Bytes, BytesMut};
use std::fmt::{self, Debug, Formatter};
use tokio_util::codec::{Decoder, Encoder};

/// A line of a client that a codec has taken: what it is, and its bytes.
#[derive(Clone)]
#[non_exhaustive]
pub struct OwnedLine {
    /// What it is.
    pub event: Event<'static>,
    /// Its bytes, its line feed among them: also those that its command ignores, as the `A` of
    /// `TYPE A`. There are none where the line is longer than the limit. Those of PASS hold the
    /// password.
    ///
    /// They share the read buffer's memory until they are dropped.
    pub bytes: Bytes,
}

impl OwnedLine {
    /// The value of its parameter, as [`Line::parameter`](crate::Line::parameter).
    ///
    /// # Errors
    ///
    /// Those of [`parameter`].
    pub fn parameter(&self) -> Result<Vec<u8>, crate::Error> {
        parameter(&self.bytes)
    }

    /// The path of LIST or NLST, as [`list_path`] has it.
    ///
    /// # Errors
    ///
    /// Those of [`parameter`].
    pub fn list_path(&self) -> Result<Vec<u8>, crate::Error> {
        list_path(&self.bytes)
    }

    /// Its [`log_line`].
    ///
    /// # Errors
    ///
    /// [`Error::OutOfMemory`](crate::Error::OutOfMemory).
    pub fn log_line(&self) -> Result<LogLine, crate::Error> {
        log_line(&self.event, &self.bytes)
    }
}

/// Shows the event, and nothing of the bytes: the line of PASS would show how long the password is.
impl Debug for OwnedLine {
    fn fmt(&self, f: &mut Formatter<'_>) -> fmt::Result {
        f.debug_struct("OwnedLine").field("event", &self.event).finish_non_exhaustive()
    }
}

/// As [`FtpCodec`](crate::FtpCodec), with the bytes of each line beside its event: for a server
/// that needs the parameter of TYPE, and for a proxy or a log.
///
/// ```
/// use bytes::BytesMut;
/// use tokio_util::codec::Decoder;
/// use unftp_control::{Command, Event, FtpLineCodec};
///
/// let mut codec = FtpLineCodec::new();
/// let mut input = BytesMut::from("TYPE A\r\nQU");
/// let line = codec.decode(&mut input)?.expect("a line");
/// assert_eq!(line.event, Event::Command(Command::Type));
/// assert_eq!(line.bytes, "TYPE A\r\n");
/// assert_eq!(line.parameter()?, b"A");
/// assert!(codec.decode(&mut input)?.is_none());
/// # Ok::<(), unftp_control::CodecError>(())
/// ```
#[derive(Clone, Debug)]
pub struct FtpLineCodec {
    lines: Lines,
}

impl FtpLineCodec {
    /// For a connection whose lines may have [`LINE_LIMIT`] bytes.
    pub fn new() -> FtpLineCodec {
        FtpLineCodec::with_limit(LINE_LIMIT)
    }

    /// The same with another limit; 0 is none. A line of more bytes, its line feed counted, is
    /// refused when it ends, and its bytes are dropped before.
    pub fn with_limit(limit: usize) -> FtpLineCodec {
        FtpLineCodec { lines: Lines::new(limit) }
    }
}

impl Default for FtpLineCodec {
    fn default() -> FtpLineCodec {
        FtpLineCodec::new()
    }
}

impl Decoder for FtpLineCodec {
    type Item = OwnedLine;
    type Error = CodecError;

    #[inline]
    fn decode(&mut self, src: &mut BytesMut) -> Result<Option<OwnedLine>, CodecError> {
        if self.lines.passes_over(src) {
            return Ok(None);
        }
        decode_by_call(&mut self.lines, src)
    }

    fn decode_eof(&mut self, src: &mut BytesMut) -> Result<Option<OwnedLine>, CodecError> {
        match self.decode(src)? {
            None if !src.is_empty() || self.lines.is_skipping() => incomplete(src),
            line => Ok(line),
        }
    }
}

// a function of its own, so that the path without a call needs no stack for a line
#[inline(never)]
fn decode_by_call(lines: &mut Lines, src: &mut BytesMut) -> Result<Option<OwnedLine>, CodecError> {
    let Some(taken) = lines.take(src).with_room() else {
        return Err(Error::OutOfMemory.into());
    };
    let (used, is_line) = (taken.used(), taken.is_line());
    let event = taken.event(Keep::OWNED);
    let bytes = if is_line {
        src.split_to(used).freeze()
    } else {
        src.advance(used);
        Bytes::new()
    };
    Ok(event.map(|event| OwnedLine { event, bytes }))
}

/// As that of [`FtpCodec`](crate::FtpCodec).
impl Encoder<Reply> for FtpLineCodec {
    type Error = CodecError;

    fn encode(&mut self, reply: Reply, dst: &mut BytesMut) -> Result<(), CodecError> {
        Ok(reply.encode(dst)?)
    }
}
