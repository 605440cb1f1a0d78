use crate::event::Refusal;
use crate::ffi;
use std::error;
use std::fmt::{self, Display, Formatter};

/// Why a call gives nothing.
#[derive(Clone, Copy, Debug, PartialEq, Eq, Hash)]
#[non_exhaustive]
pub enum Error {
    /// An allocation of the library or of an area failed. The same call may be made again.
    OutOfMemory,
    /// The line is no command, or its parameter has no value.
    Refused(Refusal),
    /// No line whose one line feed is its last byte is read as this command.
    NoLine,
    /// The bytes are not one line: no line feed is their last byte, or one comes before it.
    NotALine,
    /// The first line of what a server sent opens no reply.
    MalformedReply,
    /// The last of some replies is incomplete.
    IncompleteReply,
    /// What is shown of a line is not printable ASCII.
    NotPrintable,
    /// The first reply of what a server sent has more bytes than the limit.
    ReplyTooLong,
    /// As many lines were sent as 64 bits count.
    TooManyCommands,
    /// The name of a file has a carriage return or a line feed, so that it is in no line.
    InvalidName,
    /// A reply is preliminary where a final one is due, or final where another has to follow.
    OutOfOrder,
}

impl Error {
    /// The error of what a call that writes to an area returns.
    pub(crate) fn of_status(status: u32) -> Error {
        match status {
            ffi::OUT_OF_MEMORY => Error::OutOfMemory,
            ffi::NO_LINE => Error::NoLine,
            ffi::MORE => Error::IncompleteReply,
            ffi::MALFORMED => Error::MalformedReply,
            // of unftp_log_exchange: unftp_write_address is only called so that it doesn't return
            // it, and of the line of a file it is another error
            ffi::INVALID_ARGUMENT => Error::NotPrintable,
            _ => match Refusal::of_status(status) {
                Some(refusal) => Error::Refused(refusal),
                None => unreachable!(
                    "`reply_bytes`, `IsCanonical`, `IsForwardedLine`, `IsExchangeLine`, \
                     `IsWrittenBy`, `IsNoLine` and `or_invalid_eol` leave no status {status} for a \
                     code from 100 to 599 and an address of its form's length"
                ),
            },
        }
    }
}

impl Display for Error {
    fn fmt(&self, f: &mut Formatter<'_>) -> fmt::Result {
        match self {
            Error::OutOfMemory => f.write_str("out of memory"),
            Error::Refused(refusal) => refusal.fmt(f),
            Error::NoLine => f.write_str("no line gives this command"),
            Error::NotALine => f.write_str("not one line"),
            Error::MalformedReply => f.write_str("malformed reply"),
            Error::IncompleteReply => f.write_str("incomplete reply"),
            Error::NotPrintable => f.write_str("not printable"),
            Error::ReplyTooLong => f.write_str("reply too long"),
            Error::TooManyCommands => f.write_str("too many commands"),
            Error::InvalidName => f.write_str("carriage return or line feed in a name"),
            Error::OutOfOrder => f.write_str("reply out of order"),
        }
    }
}

impl error::Error for Error {}
