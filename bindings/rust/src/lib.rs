//! The control protocol layer of an FTP server: bytes of a control connection become typed commands
//! or named refusals, and replies become bytes (RFC 959). The work is done by calls that are proved
//! for all inputs, whose machine code the crate has with it; this crate makes them safe and typed.
//! By itself it searches a few new bytes for a line feed, before a call searches them again; cuts
//! the text of a reply that it sends or shows into lines; and says which codes are preliminary.
//!
//! It is a layer and no server: sockets, TLS, storage and accounts are the caller's.
//!
//! # A server
//!
//! [`Pending`] keeps what a client has sent and takes the [`Event`]s of its lines, one after the
//! other. A [`Reply`] becomes bytes by [`to_bytes`](Reply::to_bytes).
//!
//! ```
//! use unftp_control::{Error, Event, Pending};
//!
//! # fn main() -> Result<(), Error> {
//! let mut pending = Pending::new();
//! pending.push(b"RETR a.txt\r\nNOOP x\r\nQU")?;
//! while let Some(event) = pending.next_event()? {
//!     match event {
//!         Event::Command(command) => println!("{command:?}"),
//!         Event::Refused(refusal) => println!("{refusal}"),
//!     }
//! }
//! assert_eq!(pending.bytes(), b"QU");
//! # Ok(())
//! # }
//! ```
//!
#![cfg_attr(
    feature = "tokio-util",
    doc = "[`FtpCodec`] does both for tokio, under `Framed`; `examples/server.rs` is a server. An \
           [`FtpServer`] also logs in and transfers, as `examples/files.rs` does."
)]
#![cfg_attr(
    not(feature = "tokio-util"),
    doc = "With the feature `tokio-util`, `FtpCodec` does both for tokio, under `Framed`, and an \
           `FtpServer` also logs in and transfers."
)]
//!
//! For an event that a server doesn't serve, [`Event::usual_reply`] is what it answers. A [`Login`]
//! says which events need a login, and answers those that come without one. [`log_line`]
//! is what a log may show of a line: nothing of what PASS and ACCT have, and whether it hides a part.
//! [`log_exchange`] is what it may show of a line with its replies.
//!
//! # A client
//!
//! A [`Client`] writes the lines of commands, and says to which of them each reply is. It may keep a
//! value of the caller's for each, which comes with the reply.
#![cfg_attr(
    feature = "tokio-util",
    doc = "[`FtpClientCodec`] does it under `Framed`. [`FtpClient`] is a client under tokio, which \
           logs in and transfers."
)]
#![cfg_attr(
    not(feature = "tokio-util"),
    doc = "With the feature `tokio-util`, `FtpClient` is a client under tokio."
)]
//! A [`ReplyDecoder`] only takes replies, and [`front_reply`] finds the first one of a slice.
//!
//! # A proxy
//!
//! [`forward`] is the line that a proxy sends to a server for a client's line, and [`canonical`]
//! the one line that means what a client's line does. A proxy sends no line that is not
//! [clear](Forwarded::is_clear): one with bytes that servers read in different ways. A [`Client`]
//! toward the server keeps the order: [`take_line`](Client::take_line) takes the next line of the
//! proxy's own client, and [`answer`](Client::answer) says whether the proxy may answer it now.
#![cfg_attr(
    feature = "tokio-util",
    doc = "Under tokio an [`FtpProxy`] keeps the order by these calls, and a [`ProxyCodec`] sends the \
           client the server's replies as they came."
)]
//!
//! # Data connections
//!
//! [`read_host_port`] and [`read_extended`] read what PORT and EPRT name, [`find_host_port`] and
//! [`find_extended_port`] what a reply 227 and 229 names, and [`host_port`] and [`extended`] write
//! it; [`Reply::passive`] and [`Reply::extended_passive`] are those replies. Whose address it may be
//! is the caller's to decide (RFC 2577): [`read_host_port`] says how.
#![cfg_attr(
    feature = "tokio-util",
    doc = "A server's [`DataPort`] decides it, makes the replies and opens the connection."
)]
//!
//! [`list_line`] and [`facts_line`] are the lines of a file in the listings of LIST and MLSD, and
//! [`Reply::facts`] is the reply to MLST.
//!
//! # Linking
//!
//! The machine code is assembly text that Rattle's toolchain made of the proved library, for Linux on
//! x86-64 and on aarch64. rustc takes it in, so neither a C compiler nor an installed library is
//! needed, and what a program doesn't call isn't linked. All names in it carry the version of the
//! crate and are hidden: two versions of the crate, and the library for C, may be in one program. Of
//! the C library it needs `malloc`, `realloc`, `free`, `memcpy`, `memmove` and `memset`.
//!
//! With the feature `system` the crate links an installed library in its place, which a distribution
//! may want: `libunftp_control.a` of the folder that `UNFTP_CONTROL_LIB` names, or of `lib` there,
//! and else the one that `pkg-config unftp_control` finds, where its version is 0.4.x. The first call
//! then asks the library for its version, and panics where that is not 0.4.x.
//!
//! The crate without features has no dependencies.
//!
//! # Logs
//!
//! `Display` of a [`Command`] is what a log may show of it, and so is what the feature `serde`
//! writes: commands and events as `Serialize`, without what PASS and ACCT have. A reply is
//! written as it is, also where a server repeats in it what it was sent, and so are [`RawBytes`]
//! that a caller writes by themselves. What a client sends elsewhere is shown: a password in the
//! place of USER's name or of a path shows. [`Command::verb`] is not for a log, since it may be a
//! mistyped password.
//!
//! # Memory
//!
//! The event of a usual line borrows its value from the bytes of its [`Pending`], and takes no
//! memory. Where the library or an area of it can't allocate, a call returns
//! [`Error::OutOfMemory`] and may be made again. Owned commands, replies and codecs allocate as all
//! of Rust does, where running out of memory ends the process. Nothing wipes a password.
#![deny(missing_docs, unreachable_pub, unsafe_code)]

mod address;
mod area;
#[cfg(not(feature = "system"))]
#[allow(unsafe_code)]
mod assembly;
mod bytes;
mod canonical;
mod client;
#[cfg(feature = "tokio-util")]
mod client_codec;
mod code;
#[cfg(feature = "tokio-util")]
mod codec;
mod command;
#[cfg(feature = "tokio-util")]
mod control_stream;
#[cfg(feature = "tokio-util")]
mod data_port;
mod error;
mod event;
#[allow(unsafe_code)]
mod ffi;
#[cfg(feature = "tokio-util")]
mod ftp_client;
#[cfg(feature = "tokio-util")]
mod ftp_proxy;
#[cfg(feature = "tokio-util")]
mod ftp_server;
#[cfg(feature = "tokio-util")]
mod line_codec;
mod lines;
mod listing;
mod log;
mod login;
mod parameters;
mod pending;
#[cfg(feature = "tokio-util")]
mod proxy_codec;
mod received;
mod reply;
mod reply_decoder;
#[cfg(feature = "serde")]
mod serialize;
mod shown;
mod usual;
mod version;

pub use crate::bytes::{Password, RawBytes};
pub use address::{
    extended, extended_port, find_extended_port, find_host_port, host_port, read_extended,
    read_host_port, unmapped, AddressError,
};
pub use canonical::{canonical, forward, is_clear, Forwarded};
pub use client::{Client, ClientReply, ReplyValue, SendError, To};
#[cfg(feature = "tokio-util")]
pub use client_codec::{FtpClientCodec, NameLine, RawLine, SinkError, ToLine};
pub use code::{ReplyCode, UnknownCode};
#[cfg(feature = "tokio-util")]
pub use codec::{CodecError, FtpCodec};
pub use command::Command;
#[cfg(feature = "tokio-util")]
pub use data_port::DataPort;
pub use error::Error;
pub use event::{list_path, parameter, Event, Line, Refusal};
#[cfg(feature = "tokio-util")]
pub use ftp_client::{Answer, ClientError, FtpClient};
#[cfg(feature = "tokio-util")]
pub use ftp_proxy::{ClientLine, FtpProxy, ProxyEvent, ServerReply};
#[cfg(feature = "tokio-util")]
pub use ftp_server::{FtpServer, LineRequest, LoginRequest, Request, Transfer};
#[cfg(feature = "tokio-util")]
pub use line_codec::{FtpLineCodec, OwnedLine};
pub use lines::LINE_LIMIT;
pub use listing::{facts_line, list_line, FileKind, FileStatus};
pub use log::{log_exchange, log_line, LogLine};
pub use login::{Login, LoginStep};
pub use parameters::{AuthParam, ModeParam, Opt, ProtParam, StruParam};
pub use pending::Pending;
#[cfg(feature = "tokio-util")]
pub use proxy_codec::{ProxyCodec, ProxyReply};
pub use received::ReceivedReply;
pub use reply::{front_reply, quoted_path, reply, FrontReply, Reply};
pub use reply_decoder::{ReplyDecoder, REPLY_LIMIT};

/// The version of the proved library: `major * 1_000_000 + minor * 1_000 + patch`.
pub fn library_version() -> u32 {
    ffi::version()
}
