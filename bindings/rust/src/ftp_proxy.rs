use crate::canonical::forward;
use crate::client::{ClientReply, ReplyValue, To};
use crate::client_codec::{FtpClientCodec, RawLine};
use crate::code::ReplyCode;
use crate::codec::CodecError;
use crate::error::Error;
use crate::event::Event;
use crate::ftp_server::{close, linger};
use crate::line_codec::{FtpLineCodec, OwnedLine};
use crate::received::ReceivedReply;
use crate::reply::Reply;
use futures_core::Stream;
use futures_sink::Sink;
use std::fmt::{self, Debug, Formatter};
use std::future::poll_fn;
use std::pin::Pin;
use std::task::{Context, Poll};
use tokio::io::{AsyncRead, AsyncWrite};
use tokio_util::codec::Framed;

/// The reply that a server may send where none is asked for (RFC 959, section 4.2.2).
const SERVICE_NOT_AVAILABLE: u16 = ReplyCode::SERVICE_NOT_AVAILABLE.get();

/// How many lines may be owed a reply. A client that has sent more waits.
const MOST_OWED: u64 = 64;

/// A proxy of a control connection under tokio, between the stream of a client and that of a server.
///
/// [`next`](FtpProxy::next) returns the next line of the client or the next reply of the server. The
/// program forwards the line or answers it in the server's place, and passes the reply on or
/// replaces it. The client gets the greeting and one exchange for each line, in order: an answer of
/// the program's waits until the server owes no reply, and so does the next line. The calls that
/// decide it are those of a [`Client`](crate::Client).
///
/// **What is dropped is replied to as well.** A line that is neither forwarded nor answered gets its
/// [usual reply](Event::usual_reply) from the proxy, and a reply is passed on.
///
/// Nothing is read that can't be passed on: while a client doesn't read, no reply of the server is
/// taken, and no line while the server doesn't read, or owes replies to 64 lines. The usual limits
/// on lines and replies hold. No call has a limit of time: put `tokio::time::timeout` around
/// [`next`](FtpProxy::next), and end the session by [`close`](FtpProxy::close).
///
/// It has no TLS and no data connections. So answer AUTH, PORT and EPRT; `examples/proxy.rs` relays
/// the data connections of EPSV and PASV. Forward only commands that are on a list: others than
/// those named may change files.
///
/// ```
/// use tokio::net::TcpStream;
/// use unftp_control::{CodecError, Command, Event, FtpProxy, ProxyEvent};
///
/// async fn relay(client: TcpStream, server: TcpStream) -> Result<(), CodecError> {
///     let mut proxy = FtpProxy::new(client, server);
///     while let Some(event) = proxy.next().await? {
///         match event {
///             ProxyEvent::Reply(reply) => reply.pass_on(),
///             ProxyEvent::Line(taken) => match taken.line.event {
///                 Event::Command(Command::Noop | Command::Pwd | Command::Quit) => taken.forward()?,
///                 _ => taken.answer_usual(),
///             },
///         }
///     }
///     Ok(())
/// }
/// ```
pub struct FtpProxy<C, S> {
    client: Framed<C, FtpLineCodec>,
    server: Framed<S, FtpClientCodec<OwnedLine>>,
    /// The answer to the line that was taken last, until the client may have it.
    answer: Option<Reply>,
    has_client_ended: bool,
    is_over: bool,
}

/// What a proxy has taken.
#[must_use = "a line that is dropped gets its usual reply, and a reply is passed on"]
#[derive(Debug)]
pub enum ProxyEvent<'a, C, S> {
    /// A line of the client.
    Line(ClientLine<'a, C, S>),
    /// A reply of the server.
    Reply(ServerReply<'a, C, S>),
}

/// A line of a proxy's client.
#[must_use = "a line that is dropped gets its usual reply"]
pub struct ClientLine<'a, C, S> {
    proxy: &'a mut FtpProxy<C, S>,
    /// The line.
    pub line: OwnedLine,
}

/// A reply of a proxy's server.
#[must_use = "a reply that is dropped is passed on"]
pub struct ServerReply<'a, C, S> {
    proxy: &'a mut FtpProxy<C, S>,
    /// What it is to: the greeting, the line that the client sent, or nothing, as a 421 may be.
    pub to: To<OwnedLine>,
    /// What was received. After a 221 or a 421 the session is over, also where it is replaced.
    pub reply: ReceivedReply<'static>,
}

/// What was taken, before the program has it.
enum Taken {
    Line(OwnedLine),
    Reply(ClientReply<'static, OwnedLine>),
    End,
}

impl<C, S> FtpProxy<C, S>
where
    C: AsyncRead + AsyncWrite + Unpin,
    S: AsyncRead + AsyncWrite + Unpin,
{
    /// Nothing was read or written of either stream.
    pub fn new(client: C, server: S) -> FtpProxy<C, S> {
        FtpProxy {
            client: Framed::new(client, FtpLineCodec::new()),
            server: Framed::new(server, FtpClientCodec::with_values()),
            answer: None,
            has_client_ended: false,
            is_over: false,
        }
    }

    /// The next line or reply, once what came before is written. It returns `None` where the server
    /// ends, after a 221 or a 421, and where the client has ended and has all of its replies. Where
    /// the server ends and still owes a reply, the client gets a 421 of the proxy's. A call that is
    /// dropped loses nothing.
    ///
    /// # Errors
    ///
    /// [`CodecError::Unexpected`] where the server sends a reply that no line is owed, other than
    /// 421: the client would take it for the reply to its next line. [`CodecError::Incomplete`]
    /// where either ends within a line or a reply. [`CodecError::Control`] with
    /// [`Error::MalformedReply`], [`Error::ReplyTooLong`] or [`Error::OutOfMemory`], and
    /// [`CodecError::Io`]. Both connections are to be ended: [`close`](FtpProxy::close) can still
    /// tell the client.
    pub async fn next(&mut self) -> Result<Option<ProxyEvent<'_, C, S>>, CodecError> {
        match poll_fn(|context| self.poll_taken(context)).await? {
            Taken::Line(line) => Ok(Some(ProxyEvent::Line(ClientLine { proxy: self, line }))),
            Taken::Reply(ClientReply { to, reply }) => {
                Ok(Some(ProxyEvent::Reply(ServerReply { proxy: self, to, reply })))
            }
            Taken::End => {
                linger(self.client.get_mut()).await;
                Ok(None)
            }
        }
    }

    /// Ends the session by a last reply to the client, as 421, in place of all that it is owed. It
    /// waits at most 10 seconds for the client to read and to close. The server gets the end of its
    /// connection.
    ///
    /// # Errors
    ///
    /// [`CodecError::Io`], also where the client doesn't read, and [`CodecError::Control`] where
    /// memory runs out. Both connections are ended all the same.
    pub async fn close(self, reply: Reply) -> Result<(), CodecError> {
        drop(self.server);
        close(self.client, &reply).await
    }

    fn poll_taken(&mut self, context: &mut Context<'_>) -> Poll<Result<Taken, CodecError>> {
        loop {
            if !self.is_over {
                self.give_answer()?;
            }
            let to_client = Pin::new(&mut self.client).poll_flush(context)?;
            if self.is_done() {
                return to_client.map(|()| Ok(Taken::End));
            }
            // before a line is written: a server that has said 421 takes no more
            if to_client.is_ready() {
                match Pin::new(&mut self.server).poll_next(context)? {
                    Poll::Ready(Some(reply)) => return Poll::Ready(self.reply(reply)),
                    Poll::Ready(None) => {
                        self.end()?;
                        continue;
                    }
                    Poll::Pending => {}
                }
            }
            let to_server = Pin::new(&mut self.server);
            let to_server = Sink::<(RawLine<'_>, OwnedLine)>::poll_flush(to_server, context)?;
            if to_server.is_pending() || !self.takes_lines() {
                return Poll::Pending;
            }
            match Pin::new(&mut self.client).poll_next(context)? {
                Poll::Ready(Some(line)) => return Poll::Ready(Ok(self.line(line))),
                Poll::Ready(None) => self.has_client_ended = true,
                Poll::Pending => return Poll::Pending,
            }
        }
    }

    /// Gives the client the answer to the last line, where it may have that now.
    fn give_answer(&mut self) -> Result<(), Error> {
        match self.answer.take() {
            Some(answer) if self.server.codec_mut().answer(answer.code()) => {
                self.is_over = is_last(answer.code().get());
                answer.encode(self.client.write_buffer_mut())
            }
            later => {
                self.answer = later;
                Ok(())
            }
        }
    }

    /// Whether the client is owed a reply. An answer that waits does so for one of the server's.
    fn is_owed(&self) -> bool {
        !self.server.codec().is_greeted() || self.server.codec().owed() > 0
    }

    fn is_done(&self) -> bool {
        self.is_over || self.has_client_ended && !self.is_owed()
    }

    /// Takes the server's end.
    fn end(&mut self) -> Result<(), Error> {
        self.is_over = true;
        if !self.is_owed() {
            return Ok(());
        }
        let ended = Reply::new(ReplyCode::SERVICE_NOT_AVAILABLE, "The server has ended");
        ended.encode(self.client.write_buffer_mut())
    }

    fn takes_lines(&self) -> bool {
        let server = self.server.codec();
        !self.has_client_ended && server.owed() < MOST_OWED && server.may_take_line()
    }

    /// Takes a line, which the proxy answers itself unless it is forwarded.
    fn line(&mut self, line: OwnedLine) -> Taken {
        let is_taken = self.server.codec_mut().take_line();
        assert!(is_taken, "`may_take_line` was true, and nothing has happened since");
        self.answer = Some(line.event.usual_reply());
        Taken::Line(line)
    }

    /// Takes a reply, which the client gets unless it is replaced.
    fn reply(&mut self, taken: ClientReply<'static>) -> Result<Taken, CodecError> {
        let ClientReply { to, reply } = taken;
        self.is_over = is_last(reply.code());
        let to = match (self.server.codec_mut().reply_value(), to) {
            (Some(ReplyValue::Final(line)), _) => To::Command(line),
            (Some(ReplyValue::Preliminary(line)), _) => To::Command(line.clone()),
            (None, To::Greeting) => To::Greeting,
            (None, _) if reply.code() == SERVICE_NOT_AVAILABLE => To::Nothing,
            (None, _) => return Err(CodecError::Unexpected(reply)),
        };
        self.client.write_buffer_mut().extend_from_slice(reply.bytes());
        Ok(Taken::Reply(ClientReply { to, reply }))
    }
}

/// Whether the control connection is closed after a reply of this code (RFC 959, section 4.2.2).
fn is_last(code: u16) -> bool {
    code == ReplyCode::CLOSING_CONTROL_CONNECTION.get() || code == SERVICE_NOT_AVAILABLE
}

impl<C, S: AsyncWrite + Unpin> ClientLine<'_, C, S> {
    /// Sends the server what [`forward`] writes for the line. Where the line is refused or not
    /// [clear](crate::Forwarded::is_clear), nothing is sent, and the client gets the refusal.
    ///
    /// # Errors
    ///
    /// [`CodecError::Control`] with [`Error::OutOfMemory`] or [`Error::TooManyCommands`]. Nothing is
    /// sent, and the line gets its usual reply.
    pub fn forward(self) -> Result<(), CodecError> {
        match self.line.event {
            Event::Refused(refusal) => self.answer(refusal.reply()),
            Event::Command(_) => {
                let bytes = self.line.bytes.clone();
                self.forward_as(&bytes)
            }
        }
    }

    /// As [`forward`](ClientLine::forward), of another line in place of the client's: EPSV in place
    /// of PASV, say.
    ///
    /// # Errors
    ///
    /// Those of [`forward`](ClientLine::forward), and [`Error::NotALine`] where the bytes are not one
    /// line, in the same way.
    pub fn forward_as(self, line: &[u8]) -> Result<(), CodecError> {
        let sent = match forward(line) {
            Ok(sent) if sent.is_clear => sent.bytes,
            Ok(_) => {
                return self.answer(Reply::new(ReplyCode::PARAMETER_SYNTAX_ERROR, "Not clear"))
            }
            Err(Error::Refused(refusal)) => return self.answer(refusal.reply()),
            Err(error) => return Err(error.into()),
        };
        Pin::new(&mut self.proxy.server).start_send((RawLine(&sent), self.line))?;
        self.proxy.answer = None;
        Ok(())
    }

    /// Answers the line in the server's place, in its turn.
    ///
    /// # Errors
    ///
    /// [`Error::OutOfOrder`] where the code is from 100 to 199: another reply would have to follow.
    /// The line gets its usual reply.
    pub fn answer(self, reply: Reply) -> Result<(), CodecError> {
        if reply.is_preliminary() {
            return Err(Error::OutOfOrder.into());
        }
        self.proxy.answer = Some(reply);
        Ok(())
    }

    /// Answers the line by its [usual reply](Event::usual_reply), as a server does that does nothing
    /// for it: 502, say, or the reply to a refused line.
    pub fn answer_usual(self) {}
}

impl<C, S> ServerReply<'_, C, S> {
    /// Passes the reply on as it came.
    pub fn pass_on(self) {}

    /// Gives the client another reply in its place.
    ///
    /// # Errors
    ///
    /// [`Error::OutOfOrder`] where only one of both is preliminary, and [`Error::OutOfMemory`]. The
    /// server's reply is passed on.
    pub fn replace(self, reply: Reply) -> Result<(), CodecError> {
        if reply.is_preliminary() != self.reply.is_preliminary() {
            return Err(Error::OutOfOrder.into());
        }
        let bytes = reply.to_bytes()?;
        // all that is there is the server's reply: it was taken once the buffer was written
        let output = self.proxy.client.write_buffer_mut();
        output.clear();
        output.extend_from_slice(&bytes);
        Ok(())
    }
}

/// Shows how many lines are owed a reply.
impl<C, S> Debug for FtpProxy<C, S> {
    fn fmt(&self, f: &mut Formatter<'_>) -> fmt::Result {
        let owed = self.server.codec().owed();
        f.debug_struct("FtpProxy").field("owed", &owed).finish_non_exhaustive()
    }
}

/// Shows the line as [`OwnedLine`] does.
impl<C, S> Debug for ClientLine<'_, C, S> {
    fn fmt(&self, f: &mut Formatter<'_>) -> fmt::Result {
        f.debug_struct("ClientLine").field("line", &self.line).finish_non_exhaustive()
    }
}

/// Shows the reply, and what it is to.
impl<C, S> Debug for ServerReply<'_, C, S> {
    fn fmt(&self, f: &mut Formatter<'_>) -> fmt::Result {
        let mut shown = f.debug_struct("ServerReply");
        shown.field("to", &self.to).field("reply", &self.reply).finish_non_exhaustive()
    }
}
