use crate::bytes::{Password, RawBytes};
use crate::code::ReplyCode;
use crate::codec::CodecError;
use crate::command::Command;
use crate::control_stream::ControlStream;
use crate::data_port::DataPort;
use crate::error::Error;
use crate::event::Event;
use crate::line_codec::{FtpLineCodec, OwnedLine};
use crate::log::LogLine;
use crate::login::{Login, LoginStep};
use crate::reply::Reply;
use futures_core::Stream;
use futures_sink::Sink;
use std::fmt::{self, Debug, Formatter};
use std::future::{poll_fn, Future};
use std::io::{self, ErrorKind};
use std::mem;
use std::net::IpAddr;
use std::pin::Pin;
use std::time::Duration;
use tokio::io::{copy, sink, AsyncRead, AsyncReadExt, AsyncWrite, AsyncWriteExt};
use tokio::net::TcpStream;
use tokio::time::timeout;
use tokio_util::codec::Framed;

/// How long a client may take to open a data connection, unless the server says otherwise.
const OPENING: Duration = Duration::from_secs(30);

/// How long a client may take to read a reply, or either end of a transfer to pass a piece, unless
/// the server says otherwise.
const STALL: Duration = Duration::from_secs(300);

/// How long a client may take to read the last reply and to close.
const LINGER: Duration = Duration::from_secs(5);

/// How many bytes of a file are moved at once.
const PIECE: usize = 65_536;

/// A server's end of a control connection under tokio: its lines, its login and its data
/// connections. The program has the accounts and the files.
///
/// [`next`](FtpServer::next) answers what needs no program: each line that a [`Login`] answers, the
/// lines of a [`DataPort`], ABOR and QUIT. Each other line is a [`Request`], which the program
/// replies to by one call. A call takes the request with it, so no line has two final replies.
///
/// **A request that is dropped is answered too**, by the following `next`, so that each line has its
/// reply: a line by its [usual reply](Event::usual_reply), a login by 530, and a transfer that had
/// begun by 426.
///
/// A transfer is made before the next line is read. So an ABOR comes after it: it closes a data
/// connection that is prepared, and is answered by 226 (RFC 959, section 4.1.3). Its line feed may
/// come as urgent data, which is read where the program has set `SO_OOBINLINE` of the stream, as
/// `examples/files.rs` does. After Telnet's bytes it is refused.
///
/// A client may take only so long to [open](FtpServer::with_opening_time) a data connection, and may
/// [stall](FtpServer::with_stall_time) only so long. Nothing limits the time up to its next line:
/// [`close`](FtpServer::close) shows how to. A call that is dropped loses no line and no reply.
///
/// There is no TLS and no REIN. AUTH and REIN come as a [`Request::Line`]: give them their usual
/// reply, 502. AUTH flushes the login all the same, as [`Login`] says.
///
/// ```
/// use tokio::fs::File;
/// use tokio::net::TcpStream;
/// use unftp_control::{CodecError, Command, Event, FtpServer, Reply, Request};
///
/// async fn serve(control: TcpStream) -> Result<(), CodecError> {
///     let mut server = FtpServer::new(control)?;
///     while let Some(request) = server.next().await? {
///         match request {
///             Request::Login(login) => {
///                 let accepted = login.name == b"anna" && login.password.as_bytes() == b"secret";
///                 login.answer(accepted).await?;
///             }
///             Request::Line(request) => match &request.line.event {
///                 Event::Command(Command::Pwd) => request.reply(Reply::directory(b"/")?).await?,
///                 Event::Command(Command::Retr { path }) if path == "a.txt" => {
///                     request.send_data(File::open("a.txt")).await?;
///                 }
///                 _ => request.reply_usual().await?,
///             },
///         }
///     }
///     Ok(())
/// }
/// ```
pub struct FtpServer {
    control: Framed<ControlStream, FtpLineCodec>,
    login: Login,
    data_port: DataPort,
    opening: Duration,
    stall: Duration,
    on_line: Option<OnLine>,
    owed: Owed,
    has_quit: bool,
}

/// What the program is called with for each line.
type OnLine = Box<dyn FnMut(IpAddr, LogLine) + Send + Sync>;

/// What the client gets where the program sends no reply.
enum Owed {
    Nothing,
    Reply(Reply),
    /// The reply of a login that no account has.
    Refusal,
}

/// What a server has to answer itself.
#[must_use = "a request that is dropped gets its usual reply"]
#[derive(Debug)]
pub enum Request<'a> {
    /// PASS after USER: whether the accounts have this name with this password.
    Login(LoginRequest<'a>),
    /// Any other line, of a client that may send it.
    Line(LineRequest<'a>),
}

/// A name and a password, about which the server asks its accounts.
#[must_use = "a login that is dropped is refused"]
pub struct LoginRequest<'a> {
    server: &'a mut FtpServer,
    /// The name that USER gave.
    pub name: RawBytes<'static>,
    /// What PASS gave.
    pub password: Password<'static>,
}

/// A line that the server has to answer.
#[must_use = "a line that is dropped gets its usual reply"]
pub struct LineRequest<'a> {
    server: &'a mut FtpServer,
    /// The line.
    pub line: OwnedLine,
}

/// How a transfer has ended. The client has its final reply.
#[derive(Debug)]
#[non_exhaustive]
pub enum Transfer {
    /// All bytes have passed: 226.
    Complete {
        /// How many.
        bytes: u64,
    },
    /// The file to send could not be opened, and no data connection was: 550.
    NoFile(io::Error),
    /// No data connection was prepared, or it could not be opened: 425.
    NoConnection(io::Error),
    /// The data connection broke or stalled: 426. Of a file that is received, the bytes before that
    /// are written.
    ConnectionLost(io::Error),
    /// The file could not be read or written or stalled, or one to receive not be opened: 451.
    FileFault(io::Error),
}

impl FtpServer {
    /// That of a connection that was accepted. The first [`next`](FtpServer::next) sends the
    /// greeting, 220.
    ///
    /// # Errors
    ///
    /// The system's, where the connection has ended already.
    pub fn new(control: TcpStream) -> io::Result<FtpServer> {
        let data_port = DataPort::new(control.peer_addr()?, control.local_addr()?);
        Ok(FtpServer {
            control: Framed::new(ControlStream(control), FtpLineCodec::new()),
            login: Login::new(),
            data_port,
            opening: OPENING,
            stall: STALL,
            on_line: None,
            owed: Owed::Reply(Reply::new(ReplyCode::SERVICE_READY, "Ready")),
            has_quit: false,
        })
    }

    /// Greets the client by this reply, in place of `220 Ready`. To be called before the first
    /// [`next`](FtpServer::next), as all that are named `with_..`.
    pub fn with_greeting(self, greeting: Reply) -> FtpServer {
        FtpServer { owed: Owed::Reply(greeting), ..self }
    }

    /// Takes lines of so many bytes, the line feed counted, in place of
    /// [`LINE_LIMIT`](crate::LINE_LIMIT); 0 is no limit. A longer line is refused.
    pub fn with_line_limit(mut self, limit: usize) -> FtpServer {
        *self.control.codec_mut() = FtpLineCodec::with_limit(limit);
        self
    }

    /// Lets a client take so long to open a data connection, in place of 30 seconds.
    pub fn with_opening_time(self, limit: Duration) -> FtpServer {
        FtpServer { opening: limit, ..self }
    }

    /// Lets a client take so long to read a reply, and either end of a transfer to pass the next
    /// piece, of up to 64 KiB, in place of 5 minutes. After that a transfer ends, by 426 or by 451,
    /// and a call that sends a reply returns [`CodecError::Io`] with [`ErrorKind::TimedOut`].
    pub fn with_stall_time(self, limit: Duration) -> FtpServer {
        FtpServer { stall: limit, ..self }
    }

    /// Sets up the data port, as by [`DataPort::with_ports`] or [`DataPort::on_foreign_peer`].
    ///
    /// ```
    /// # use unftp_control::FtpServer;
    /// # fn of(server: FtpServer) -> FtpServer {
    /// server.with_data_port(|data_port| data_port.with_ports(50000..=50999))
    /// # }
    /// ```
    pub fn with_data_port(self, set_up: impl FnOnce(DataPort) -> DataPort) -> FtpServer {
        FtpServer { data_port: set_up(self.data_port), ..self }
    }

    /// Calls this with the client's address and what a log may show of each line, before that is
    /// answered.
    pub fn on_line(self, call: impl FnMut(IpAddr, LogLine) + Send + Sync + 'static) -> FtpServer {
        FtpServer { on_line: Some(Box::new(call)), ..self }
    }

    /// The client's address: that of IPv4 where it is IPv4-mapped.
    pub fn client(&self) -> IpAddr {
        self.data_port.client()
    }

    /// The next thing that the program has to answer; `None` after QUIT, which is answered by 221,
    /// and at the client's end. What the client sends after QUIT is dropped.
    ///
    /// # Errors
    ///
    /// [`CodecError::Incomplete`] where the client ends within a line; [`CodecError::Io`]; and
    /// [`CodecError::Control`] where memory runs out. The connection is to be ended.
    pub async fn next(&mut self) -> Result<Option<Request<'_>>, CodecError> {
        self.put_owed()?;
        loop {
            self.flush().await?;
            if self.has_quit {
                linger(self.control.get_mut()).await;
                return Ok(None);
            }
            let control = &mut self.control;
            let line = poll_fn(|context| Pin::new(&mut *control).poll_next(context)).await;
            let Some(line) = line.transpose()? else { return Ok(None) };
            if let Some(call) = &mut self.on_line {
                call(self.data_port.client(), line.log_line()?);
            }
            let answered = match self.login.event(&line.event) {
                LoginStep::AskAccounts { name, password } => {
                    let (name, password) = (name.to_vec().into(), password.into_owned());
                    self.owed = Owed::Refusal;
                    return Ok(Some(Request::Login(LoginRequest { server: self, name, password })));
                }
                LoginStep::Answer(reply) => Some(reply),
                LoginStep::PassOn => None,
            };
            let Some(reply) = answered.or_else(|| self.answer(&line)) else {
                self.owed = Owed::Reply(line.event.usual_reply());
                return Ok(Some(Request::Line(LineRequest { server: self, line })));
            };
            self.put(&reply)?;
        }
    }

    /// Ends the session by a last reply in place of any that is owed, as 421 to a client that is idle
    /// too long, or in place of the reply to a request that is dropped. It waits at most 10 seconds
    /// for the client to read and to close. A 421 by [`reply`](LineRequest::reply) ends nothing.
    ///
    /// ```
    /// use std::time::Duration;
    /// use tokio::time::timeout;
    /// use unftp_control::{CodecError, FtpServer, Reply, ReplyCode, Request};
    ///
    /// async fn serve(mut server: FtpServer) -> Result<(), CodecError> {
    ///     loop {
    ///         let Ok(next) = timeout(Duration::from_secs(300), server.next()).await else {
    ///             let late = Reply::new(ReplyCode::SERVICE_NOT_AVAILABLE, "Idle too long");
    ///             return server.close(late).await;
    ///         };
    ///         match next? {
    ///             None => return Ok(()),
    ///             Some(Request::Login(login)) => login.answer(false).await?,
    ///             Some(Request::Line(request)) => request.reply_usual().await?,
    ///         }
    ///     }
    /// }
    /// ```
    ///
    /// # Errors
    ///
    /// [`CodecError::Io`], also where the client doesn't read, and [`CodecError::Control`] where
    /// memory runs out. The connection is ended all the same.
    pub async fn close(self, reply: Reply) -> Result<(), CodecError> {
        close(self.control, &reply).await
    }

    /// The reply to a line for which no program is needed.
    fn answer(&mut self, line: &OwnedLine) -> Option<Reply> {
        match &line.event {
            Event::Command(Command::Quit) => {
                self.has_quit = true;
                Some(line.event.usual_reply())
            }
            Event::Command(Command::Abor) => {
                self.data_port.close();
                Some(Reply::new(ReplyCode::CLOSING_DATA_CONNECTION, "No transfer is under way"))
            }
            _ => self.data_port.answer(line),
        }
    }

    /// Appends a reply to what is sent next.
    fn put(&mut self, reply: &Reply) -> Result<(), Error> {
        reply.encode(self.control.write_buffer_mut())
    }

    /// The reply to a request that was dropped.
    fn put_owed(&mut self) -> Result<(), Error> {
        let reply = match mem::replace(&mut self.owed, Owed::Nothing) {
            Owed::Nothing => return Ok(()),
            Owed::Reply(reply) => reply,
            Owed::Refusal => self.login.answer(false),
        };
        self.put(&reply)
    }

    async fn flush(&mut self) -> Result<(), CodecError> {
        flush(&mut self.control, self.stall).await
    }

    /// Sends the final reply to a request.
    async fn finish(&mut self, reply: &Reply) -> Result<(), CodecError> {
        self.put(reply)?;
        self.owed = Owed::Nothing;
        self.flush().await
    }

    /// The data connection, after the reply 150.
    async fn open_data(&mut self) -> Result<io::Result<TcpStream>, CodecError> {
        if !self.data_port.is_prepared() {
            return Ok(Err(ErrorKind::NotConnected.into()));
        }
        self.put(&Reply::new(ReplyCode::FILE_STATUS_OKAY, "Opening the data connection"))?;
        self.flush().await?;
        Ok(self.data_port.open(self.opening).await)
    }

    /// Lets a transfer that is dropped be answered as one that was ended.
    fn begin_transfer(&mut self) {
        self.owed = Owed::Reply(Reply::new(ReplyCode::CONNECTION_CLOSED, "Ended early"));
    }

    async fn finish_transfer(&mut self, transfer: Transfer) -> Result<Transfer, CodecError> {
        self.finish(&transfer.reply()).await?;
        Ok(transfer)
    }
}

impl LoginRequest<'_> {
    /// Takes what the accounts say, and replies: 230 or 530. A data connection that was prepared
    /// before a login is closed.
    ///
    /// # Errors
    ///
    /// [`CodecError::Io`], and [`CodecError::Control`] where memory runs out. The connection is to be
    /// ended.
    pub async fn answer(self, accepted: bool) -> Result<(), CodecError> {
        self.server.data_port.close();
        let reply = self.server.login.answer(accepted);
        self.server.finish(&reply).await
    }
}

impl LineRequest<'_> {
    /// The name of who is logged in; `None` before a login, of a line that needs none.
    pub fn user(&self) -> Option<&[u8]> {
        self.server.login.name()
    }

    /// Replies to the line.
    ///
    /// # Errors
    ///
    /// [`Error::OutOfOrder`] where the code is from 100 to 199: another reply would have to follow.
    /// It is not sent, and the line gets its usual reply. At [`CodecError::Io`], and at any other
    /// [`CodecError::Control`], where memory runs out, the connection is to be ended.
    pub async fn reply(self, reply: Reply) -> Result<(), CodecError> {
        if reply.is_preliminary() {
            return Err(Error::OutOfOrder.into());
        }
        self.server.finish(&reply).await
    }

    /// Replies as a server does that does nothing for the line, by [`Event::usual_reply`].
    ///
    /// # Errors
    ///
    /// [`CodecError::Io`], and [`CodecError::Control`] where memory runs out. The connection is to be
    /// ended.
    pub async fn reply_usual(self) -> Result<(), CodecError> {
        self.server.finish(&self.line.event.usual_reply()).await
    }

    /// Sends a file, or what else a reader has, and replies (RFC 959, section 5.4). First the file
    /// is opened, and then the data connection.
    ///
    /// | reply | where |
    /// |---|---|
    /// | 550 | the file can't be opened |
    /// | 425 | no data connection is prepared, or it can't be opened |
    /// | 150, 425 | the client doesn't open it in time, or refuses it |
    /// | 150, 226 | all was sent, and the data connection is shut down |
    /// | 150, 426 | the data connection broke or stalled |
    /// | 150, 451 | the file can't be read to its end, or stalled |
    ///
    /// # Errors
    ///
    /// [`CodecError::Io`] of the control connection, and [`CodecError::Control`] where memory runs
    /// out: the connection is to be ended. All that fails of the file or the data connection is a
    /// [`Transfer`].
    pub async fn send_data<R: AsyncRead + Unpin>(
        self,
        opening: impl Future<Output = io::Result<R>>,
    ) -> Result<Transfer, CodecError> {
        self.server.begin_transfer();
        let transfer = match opening.await {
            Err(error) => Transfer::NoFile(error),
            Ok(mut file) => match self.server.open_data().await? {
                Err(error) => Transfer::NoConnection(error),
                Ok(mut data) => send(&mut file, &mut data, self.server.stall).await,
            },
        };
        self.server.finish_transfer(transfer).await
    }

    /// Receives a file, and replies (RFC 959, section 5.4). First the data connection is opened, and
    /// then the file, so that no file is emptied for a client that sends nothing. The file is
    /// shut down before the reply 226, which flushes it.
    ///
    /// | reply | where |
    /// |---|---|
    /// | 425 | no data connection is prepared, or it can't be opened |
    /// | 150, 425 | the client doesn't open it in time, or refuses it |
    /// | 150, 226 | the client has ended the data, and all is written |
    /// | 150, 426 | the data connection broke or stalled |
    /// | 150, 451 | the file can't be opened or written, or stalled |
    ///
    /// # Errors
    ///
    /// Those of [`send_data`](LineRequest::send_data).
    pub async fn receive_data<W: AsyncWrite + Unpin>(
        self,
        opening: impl Future<Output = io::Result<W>>,
    ) -> Result<Transfer, CodecError> {
        self.server.begin_transfer();
        let transfer = match self.server.open_data().await? {
            Err(error) => Transfer::NoConnection(error),
            Ok(mut data) => match opening.await {
                Err(error) => Transfer::FileFault(error),
                Ok(mut file) => receive(&mut data, &mut file, self.server.stall).await,
            },
        };
        self.server.finish_transfer(transfer).await
    }
}

impl Transfer {
    /// The final reply.
    fn reply(&self) -> Reply {
        let (code, error) = match self {
            Transfer::Complete { .. } => {
                return Reply::new(ReplyCode::CLOSING_DATA_CONNECTION, "Transfer complete")
            }
            Transfer::NoFile(error) => (ReplyCode::FILE_ERROR, error),
            Transfer::NoConnection(error) => (ReplyCode::CANT_OPEN_DATA_CONNECTION, error),
            Transfer::ConnectionLost(error) => (ReplyCode::CONNECTION_CLOSED, error),
            Transfer::FileFault(error) => (ReplyCode::LOCAL_ERROR, error),
        };
        Reply::new(code, error.kind().to_string())
    }
}

/// Writes a last reply, and ends the connection.
pub(crate) async fn close<C: AsyncRead + AsyncWrite + Unpin>(
    mut control: Framed<C, FtpLineCodec>,
    reply: &Reply,
) -> Result<(), CodecError> {
    reply.encode(control.write_buffer_mut())?;
    flush(&mut control, LINGER).await?;
    linger(control.get_mut()).await;
    Ok(())
}

/// Writes what is there, to a client that reads it in time.
async fn flush<C: AsyncWrite + Unpin>(
    control: &mut Framed<C, FtpLineCodec>,
    limit: Duration,
) -> Result<(), CodecError> {
    let flushed = poll_fn(|context| Pin::new(&mut *control).poll_flush(context));
    timeout(limit, flushed).await.map_err(io::Error::from)?
}

/// Ends a connection whose last reply is written. To close over unread bytes would reset it, and that
/// reply may be lost: what the client still sends is read and dropped.
pub(crate) async fn linger(control: &mut (impl AsyncRead + AsyncWrite + Unpin)) {
    let closed = async {
        control.shutdown().await?;
        copy(control, &mut sink()).await
    };
    // whatever the client does, it has its replies
    let _ = timeout(LINGER, closed).await;
}

/// Sends a file, and shuts the data connection down.
async fn send(
    file: &mut (impl AsyncRead + Unpin),
    data: &mut TcpStream,
    stall: Duration,
) -> Transfer {
    let bytes = match pass(file, data, stall).await {
        Ok(bytes) => bytes,
        Err(Fault::Reading(error)) => return Transfer::FileFault(error),
        Err(Fault::Writing(error)) => return Transfer::ConnectionLost(error),
    };
    match data.shutdown().await {
        Ok(()) => Transfer::Complete { bytes },
        Err(error) => Transfer::ConnectionLost(error),
    }
}

/// Receives a file, and shuts it down, also one that is cut.
async fn receive(
    data: &mut TcpStream,
    file: &mut (impl AsyncWrite + Unpin),
    stall: Duration,
) -> Transfer {
    let passed = pass(data, file, stall).await;
    match (passed, file.shutdown().await) {
        (Err(Fault::Writing(error)), _) | (_, Err(error)) => Transfer::FileFault(error),
        (Err(Fault::Reading(error)), Ok(())) => Transfer::ConnectionLost(error),
        (Ok(bytes), Ok(())) => Transfer::Complete { bytes },
    }
}

/// Which end of a transfer failed.
enum Fault {
    Reading(io::Error),
    Writing(io::Error),
}

/// Passes all bytes on, and returns how many. `tokio::io::copy` doesn't say which end failed.
async fn pass<R, W>(from: &mut R, to: &mut W, stall: Duration) -> Result<u64, Fault>
where
    R: AsyncRead + Unpin,
    W: AsyncWrite + Unpin,
{
    let (mut piece, mut bytes) = (vec![0; PIECE], 0);
    loop {
        let count = within(stall, from.read(&mut piece)).await.map_err(Fault::Reading)?;
        if count == 0 {
            return Ok(bytes);
        }
        within(stall, to.write_all(&piece[..count])).await.map_err(Fault::Writing)?;
        bytes += count as u64;
    }
}

/// What a call returns, or [`ErrorKind::TimedOut`] after that time.
async fn within<T>(limit: Duration, call: impl Future<Output = io::Result<T>>) -> io::Result<T> {
    timeout(limit, call).await?
}

/// Shows who the client is, and nothing of what was sent.
impl Debug for FtpServer {
    fn fmt(&self, f: &mut Formatter<'_>) -> fmt::Result {
        f.debug_struct("FtpServer").field("client", &self.client()).finish_non_exhaustive()
    }
}

/// Shows the name, and of the password what [`Password`] shows.
impl Debug for LoginRequest<'_> {
    fn fmt(&self, f: &mut Formatter<'_>) -> fmt::Result {
        let mut shown = f.debug_struct("LoginRequest");
        shown.field("name", &self.name).field("password", &self.password).finish_non_exhaustive()
    }
}

/// Shows the line as [`OwnedLine`] does.
impl Debug for LineRequest<'_> {
    fn fmt(&self, f: &mut Formatter<'_>) -> fmt::Result {
        f.debug_struct("LineRequest").field("line", &self.line).finish_non_exhaustive()
    }
}
