use crate::address::{find_extended_port, find_host_port};
use crate::client_codec::{FtpClientCodec, RawLine, ToLine};
use crate::codec::CodecError;
use crate::command::Command;
use crate::received::ReceivedReply;
use futures_core::Stream;
use futures_sink::Sink;
use std::error;
use std::fmt::{self, Display, Formatter};
use std::future::poll_fn;
use std::io;
use std::mem;
use std::net::{IpAddr, SocketAddr};
use std::pin::Pin;
use std::task::Poll;
use std::time::Duration;
use tokio::io::{AsyncRead, AsyncWrite};
use tokio::net::TcpStream;
use tokio::time::timeout;
use tokio_util::codec::Framed;

/// How many preliminary replies an answer may have. A server may send any number of them.
const MOST_PRELIMINARY: usize = 16;

/// A client's end of a control connection under tokio, which sends one command after the other.
///
/// [`ask`](FtpClient::ask) is for commands that transfer nothing: it sends one, and returns the
/// final reply. In a transfer the server sends that only once the data has passed. So
/// [`passive`](FtpClient::passive) makes the data connection, [`begin`](FtpClient::begin) sends the
/// command and returns once the server uses that connection, and after the data
/// [`finish`](FtpClient::finish) returns the final reply.
///
/// An answer that was not read to its end is never taken for that to another command: until it is,
/// each call but `finish` returns [`ClientError::Unfinished`], and sends nothing. No call reads such
/// an answer by itself, since that of a transfer may come only after the data, and says whether all
/// of it came.
///
/// Each call waits for the server as long as that takes, and only that for a data connection has a
/// limit: `tokio::time::timeout` around a call bounds it. A call that is dropped loses nothing: what
/// it has sent stays sent, and `finish` returns the answer to it.
///
/// ```
/// use std::error::Error;
/// use std::time::Duration;
/// use tokio::io::AsyncReadExt;
/// use tokio::net::TcpStream;
/// use unftp_control::{Command, FtpClient};
///
/// async fn read_file(stream: TcpStream, path: &str) -> Result<Vec<u8>, Box<dyn Error>> {
///     let mut client = FtpClient::new(stream);
///     client.greeting().await?.completed()?;
///     client.log_in("anna", "secret").await?;
///     client.ask(Command::Type).await?.completed()?;
///     let mut data = client.passive(Duration::from_secs(30)).await?;
///     client.begin(Command::Retr { path: path.into() }).await?;
///     let mut bytes = Vec::new();
///     data.read_to_end(&mut bytes).await?;
///     client.finish().await?.completed()?;
///     Ok(bytes)
/// }
/// ```
///
/// A client that turns to TLS takes the codec along, where [`tls_agreed`](FtpClient::tls_agreed):
///
/// ```
/// # use std::{future::Future, io};
/// # use tokio::io::{AsyncRead, AsyncWrite};
/// use tokio_util::codec::Framed;
/// use unftp_control::FtpClient;
///
/// # async fn turn<S, R, F>(
/// #     client: FtpClient<S>,
/// #     handshake: impl FnOnce(S) -> F,
/// # ) -> io::Result<FtpClient<R>>
/// # where
/// #     S: AsyncRead + AsyncWrite + Unpin,
/// #     R: AsyncRead + AsyncWrite + Unpin,
/// #     F: Future<Output = io::Result<R>>,
/// # {
/// let parts = client.into_framed().into_parts();
/// let client = FtpClient::from(Framed::new(handshake(parts.io).await?, parts.codec));
/// # Ok(client)
/// # }
/// ```
#[derive(Debug)]
pub struct FtpClient<S> {
    server: Framed<S, FtpClientCodec>,
    /// The preliminary replies of the answer that is unfinished.
    preliminary: Vec<ReceivedReply<'static>>,
}

/// The replies to a command, or the greeting.
#[derive(Clone, Debug, PartialEq, Eq)]
#[non_exhaustive]
pub struct Answer {
    /// The preliminary ones, in order.
    pub preliminary: Vec<ReceivedReply<'static>>,
    /// The final one, whatever its code.
    pub reply: ReceivedReply<'static>,
}

impl Answer {
    /// The final reply, where it says that the command is completed: its code is from 200 to 299
    /// (RFC 959, section 4.2.1).
    ///
    /// # Errors
    ///
    /// [`ClientError::Refused`] with any other one, also a 3xx, which asks for another command.
    pub fn completed(self) -> Result<ReceivedReply<'static>, ClientError> {
        match self.reply.code() {
            200..=299 => Ok(self.reply),
            _ => Err(ClientError::Refused(self.reply)),
        }
    }
}

impl<S: AsyncRead + AsyncWrite + Unpin> FtpClient<S> {
    /// Nothing was sent or received. The server has to send its
    /// [`greeting`](FtpClient::greeting) first.
    pub fn new(stream: S) -> FtpClient<S> {
        Framed::new(stream, FtpClientCodec::new()).into()
    }

    /// Waits for the greeting: 220, or a 421 of a server that closes the connection (RFC 959,
    /// section 5.4).
    ///
    /// # Errors
    ///
    /// [`ClientError::NothingOwed`] where it was returned before; and those of
    /// [`finish`](FtpClient::finish).
    pub async fn greeting(&mut self) -> Result<Answer, ClientError> {
        match self.server.codec().is_greeted() {
            true => Err(ClientError::NothingOwed),
            false => self.answer().await,
        }
    }

    /// Sends a command, or a line, and returns the replies to it. **It is not for a transfer**:
    /// while it waits for the final reply, the server waits for its data to be read or written.
    ///
    /// What has come before the command is sent is no reply to it, and nothing is sent then. A 421
    /// that comes later is the final reply, since it may be that to any command (RFC 959, section
    /// 4.2.2), and the next call finds the connection closed.
    ///
    /// # Errors
    ///
    /// Nothing was sent at [`ClientError::Unfinished`]; at [`ClientError::Unexpected`], as a 421 to
    /// a client that was idle too long; and at [`ClientError::Codec`] of an item that gives no line.
    /// At those of [`finish`](FtpClient::finish) the connection is to be ended.
    pub async fn ask<L: ToLine>(&mut self, line: L) -> Result<Answer, ClientError> {
        self.send(line).await?;
        self.answer().await
    }

    /// Sends the command of a transfer, or its line, and returns the first reply, which is
    /// preliminary, as 150: the server uses the data connection that was made before. Read or write
    /// the data now, and then [`finish`](FtpClient::finish).
    ///
    /// # Errors
    ///
    /// [`ClientError::Refused`] where the first reply is the final one, as 550: the server uses no
    /// data connection, so drop yours. The answer is complete, and the connection may go on.
    ///
    /// Also those of [`ask`](FtpClient::ask).
    pub async fn begin<L: ToLine>(
        &mut self,
        line: L,
    ) -> Result<ReceivedReply<'static>, ClientError> {
        self.send(line).await?;
        let reply = self.next_reply().await?;
        match reply.is_preliminary() {
            true => Ok(reply),
            false => Err(ClientError::Refused(reply)),
        }
    }

    /// Waits for the answer that is unfinished: after [`begin`](FtpClient::begin), or a call that
    /// was dropped. It has the replies that none of these has returned. Before it an upload ends its
    /// data by a shutdown of the data connection, or drops it. To end a transfer early, drop the
    /// data connection: the server then says 426, or 226 where it had sent all.
    ///
    /// # Errors
    ///
    /// [`ClientError::NothingOwed`] where each command has its final reply. The answer stays
    /// unfinished, and the connection is to be ended, at [`ClientError::Closed`],
    /// [`ClientError::TooManyReplies`] and [`ClientError::Codec`].
    pub async fn finish(&mut self) -> Result<Answer, ClientError> {
        match self.is_unfinished() {
            true => self.answer().await,
            false => Err(ClientError::NothingOwed),
        }
    }

    /// Logs in by USER, and by PASS where the reply to USER is 331, and returns the reply that says
    /// so: 230, or another from 200 to 299. Name and password are bytes in any encoding.
    ///
    /// # Errors
    ///
    /// [`ClientError::Refused`] with any other final reply, as it came. After a 332 the server wants
    /// an account: `ask` of [`Command::Acct`] goes on. A name or a password with a line feed is a
    /// [`ClientError::Codec`], and nothing is sent. Also those of [`ask`](FtpClient::ask).
    pub async fn log_in(
        &mut self,
        name: impl AsRef<[u8]>,
        password: impl AsRef<[u8]>,
    ) -> Result<ReceivedReply<'static>, ClientError> {
        let user = Command::User { username: name.as_ref().into() };
        let pass = Command::Pass { password: password.as_ref().into() };
        let pass = pass.to_line().map_err(CodecError::from)?;
        let mut answer = self.ask(user).await?;
        if answer.reply.code() == 331 {
            answer = self.ask(RawLine(&pass)).await?;
        }
        answer.completed()
    }

    /// As [`passive`](FtpClient::passive), to the server's address that is given: for a control
    /// connection that is no `TcpStream`, as one under TLS. The data connection is not under TLS.
    ///
    /// # Errors
    ///
    /// Those of [`passive`](FtpClient::passive).
    pub async fn passive_at(
        &mut self,
        server: IpAddr,
        limit: Duration,
    ) -> Result<TcpStream, ClientError> {
        self.passive_from(SocketAddr::new(server, 0), limit).await
    }

    /// Whether TLS may begin: the last reply was a 234 to the last command, which asks for TLS, and
    /// no byte is pending (RFC 4217, section 4). Where bytes are pending after that 234, end the
    /// connection.
    pub fn tls_agreed(&self) -> bool {
        self.server.codec().tls_agreed(self.server.read_buffer())
    }

    /// The stream, its codec and its buffers.
    pub fn framed(&self) -> &Framed<S, FtpClientCodec> {
        &self.server
    }

    /// The same, without this client. Preliminary replies of an answer that is unfinished are lost.
    pub fn into_framed(self) -> Framed<S, FtpClientCodec> {
        self.server
    }

    /// Whether the greeting, or a command, is owed its final reply.
    fn is_unfinished(&self) -> bool {
        let codec = self.server.codec();
        !codec.is_greeted() || codec.owed() > 0
    }

    /// Sends a line, of which `next_reply` writes what isn't written yet.
    async fn send<L: ToLine>(&mut self, line: L) -> Result<(), ClientError> {
        if self.is_unfinished() {
            return Err(ClientError::Unfinished);
        }
        let server = &mut self.server;
        let early = poll_fn(|context| Poll::Ready(Pin::new(&mut *server).poll_next(context))).await;
        if let Poll::Ready(taken) = early {
            return Err(ClientError::Unexpected(taken.ok_or(ClientError::Closed)??.reply));
        }
        poll_fn(|context| Sink::<L>::poll_ready(Pin::new(&mut *server), context)).await?;
        Ok(Pin::new(server).start_send(line)?)
    }

    /// The next reply, which is to the greeting or to the command that is owed one.
    async fn next_reply(&mut self) -> Result<ReceivedReply<'static>, ClientError> {
        let server = &mut self.server;
        poll_fn(|context| Sink::<RawLine<'_>>::poll_flush(Pin::new(&mut *server), context)).await?;
        let taken = poll_fn(|context| Pin::new(&mut *server).poll_next(context)).await;
        Ok(taken.ok_or(ClientError::Closed)??.reply)
    }

    /// The replies up to the final one.
    async fn answer(&mut self) -> Result<Answer, ClientError> {
        loop {
            let reply = self.next_reply().await?;
            if !reply.is_preliminary() {
                return Ok(Answer { preliminary: mem::take(&mut self.preliminary), reply });
            }
            if self.preliminary.len() == MOST_PRELIMINARY {
                return Err(ClientError::TooManyReplies);
            }
            self.preliminary.push(reply);
        }
    }

    /// The port at which the server listens for a data connection.
    async fn passive_port(&mut self) -> Result<u16, ClientError> {
        let extended = self.ask(Command::Epsv).await?.reply;
        let reply = match extended.code() {
            229 | 421 => extended,
            _ => self.ask(Command::Pasv).await?.reply,
        };
        let port = match reply.code() {
            229 => reply.lines().find_map(find_extended_port),
            227 => reply.lines().find_map(find_host_port).map(|address| address.port()),
            _ => return Err(ClientError::Refused(reply)),
        };
        port.filter(|port| *port != 0).ok_or(ClientError::NoPort(reply))
    }

    /// A data connection to this address with the port that the server names.
    async fn passive_from(
        &mut self,
        mut server: SocketAddr,
        limit: Duration,
    ) -> Result<TcpStream, ClientError> {
        let made = timeout(limit, async {
            server.set_port(self.passive_port().await?);
            TcpStream::connect(server).await.map_err(ClientError::Data)
        });
        made.await.unwrap_or(Err(ClientError::TimedOut))
    }
}

impl FtpClient<TcpStream> {
    /// Makes a data connection in passive mode, for the next transfer: by EPSV, or by PASV where the
    /// server refuses that (RFC 2428, section 3). It goes to the address of the control connection,
    /// whatever address a 227 names, so that no server can have a client connect elsewhere (RFC
    /// 2577). The limit is for all of it: a server may say where it listens, and not answer there.
    ///
    /// # Panics
    ///
    /// Outside of a tokio runtime whose I/O and time are enabled.
    ///
    /// # Errors
    ///
    /// [`ClientError::Refused`] with the reply to PASV, or a 421 to EPSV; [`ClientError::NoPort`];
    /// [`ClientError::Data`]; [`ClientError::TimedOut`]; and those of [`ask`](FtpClient::ask).
    pub async fn passive(&mut self, limit: Duration) -> Result<TcpStream, ClientError> {
        let server = self.server.get_ref().peer_addr().map_err(CodecError::from)?;
        self.passive_from(server, limit).await
    }
}

/// A client of a stream with its codec: with another limit on replies, or one that goes on under
/// TLS. An answer that is owed there is unfinished.
impl<S> From<Framed<S, FtpClientCodec>> for FtpClient<S> {
    fn from(server: Framed<S, FtpClientCodec>) -> FtpClient<S> {
        FtpClient { server, preliminary: Vec::new() }
    }
}

/// Why a call of an [`FtpClient`] doesn't do what it is for.
#[derive(Debug)]
#[non_exhaustive]
pub enum ClientError {
    /// An answer is unfinished, or the greeting. Nothing was sent:
    /// [`finish`](FtpClient::finish) returns the rest of that answer, and then the connection goes
    /// on.
    Unfinished,
    /// No answer is unfinished, so there is none to wait for. The connection may go on.
    NothingOwed,
    /// The server has not completed a command, or has refused a transfer, by this final reply. Its
    /// code may also be 332 of a login. After another code than 421 the connection may go on.
    Refused(ReceivedReply<'static>),
    /// This reply 227 or 229 names no port. The connection may go on.
    NoPort(ReceivedReply<'static>),
    /// The data connection could not be made. The control connection may go on.
    Data(io::Error),
    /// The limit on making a data connection has passed. Where the server still owed a reply, the
    /// answer is [unfinished](ClientError::Unfinished). Else the connection may go on.
    TimedOut,
    /// A reply that nothing asked for came before the command, as a 421 before the server closes the
    /// connection. The command was not sent, and the connection is to be ended.
    Unexpected(ReceivedReply<'static>),
    /// The server has closed the connection between two replies, where one was owed or before a
    /// command was sent.
    Closed,
    /// An answer has more than 16 preliminary replies. The connection is to be ended.
    TooManyReplies,
    /// The codec's error. Where an item gives no line, nothing was sent, and the connection may go
    /// on. Else it is to be ended: reading or writing failed, the server has closed the connection
    /// within a reply, or a reply is malformed or too long.
    Codec(CodecError),
}

impl Display for ClientError {
    fn fmt(&self, f: &mut Formatter<'_>) -> fmt::Result {
        match self {
            ClientError::Unfinished => f.write_str("an answer is unfinished"),
            ClientError::NothingOwed => f.write_str("no answer is unfinished"),
            ClientError::Refused(reply) => write!(f, "the server refuses: {reply}"),
            ClientError::NoPort(reply) => write!(f, "no port is named: {reply}"),
            ClientError::Data(error) => write!(f, "no data connection: {error}"),
            ClientError::TimedOut => f.write_str("no data connection in time"),
            ClientError::Unexpected(reply) => {
                write!(f, "a reply that was not asked for: {reply}")
            }
            ClientError::Closed => f.write_str("the server has closed the connection"),
            ClientError::TooManyReplies => f.write_str("too many preliminary replies"),
            ClientError::Codec(error) => Display::fmt(error, f),
        }
    }
}

impl error::Error for ClientError {
    fn source(&self) -> Option<&(dyn error::Error + 'static)> {
        match self {
            ClientError::Data(error) => error.source(),
            ClientError::Codec(error) => error.source(),
            _ => None,
        }
    }
}

impl From<CodecError> for ClientError {
    fn from(error: CodecError) -> ClientError {
        ClientError::Codec(error)
    }
}
