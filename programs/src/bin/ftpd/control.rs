//! A control connection: its lines, and replies that are sent together.
use bytes::BytesMut;
use std::collections::VecDeque;
use std::io::{self, ErrorKind};
use std::time::Duration;
use tokio::io::{AsyncReadExt, AsyncWriteExt};
use tokio::task::yield_now;
use tokio::time::timeout;
use tokio_rustls::TlsAcceptor;
use tokio_util::codec::{Decoder, Encoder};
use unftp_control::{CodecError, Command, Event, FtpLineCodec, OwnedLine, Reply};
use unftp_control_programs::stream::Stream;
use unftp_control_programs::telnet::Telnet;

/// How many bytes are read at a time.
const READ: usize = 2048;
/// How many lines may wait for the end of a transfer.
const WAITING: usize = 1000;
/// How many lines of a client are taken before others have their turn: the runtime looks at no socket
/// while a task runs, and a client may send lines as fast as they are answered.
const TURN: usize = 128;

/// A control connection.
pub struct Control {
    stream: Stream,
    input: BytesMut,
    telnet: Telnet,
    codec: FtpLineCodec,
    /// How many lines were looked for in this turn.
    taken: usize,
    /// Lines that came during a transfer.
    waiting: VecDeque<OwnedLine>,
    /// Replies that are to be sent.
    output: BytesMut,
    /// How long the client may not read its replies.
    patience: Duration,
}

impl Control {
    /// Over this stream. A client that doesn't read for so long loses its connection.
    pub fn new(stream: Stream, patience: Duration) -> Control {
        Control {
            stream,
            input: BytesMut::with_capacity(READ),
            telnet: Telnet::default(),
            codec: FtpLineCodec::new(),
            taken: 0,
            waiting: VecDeque::new(),
            output: BytesMut::new(),
            patience,
        }
    }

    /// The next line. Replies are sent before it is waited for.
    pub async fn line(&mut self) -> Result<OwnedLine, CodecError> {
        if let Some(line) = self.waiting.pop_front() {
            return Ok(line);
        }
        loop {
            if let Some(line) = self.received_line().await? {
                return Ok(line);
            }
            self.flush().await?;
            self.receive().await?;
        }
    }

    /// The next line that comes during a transfer. A call that is dropped loses nothing.
    pub async fn line_in_transfer(&mut self) -> Result<OwnedLine, CodecError> {
        loop {
            if let Some(line) = self.received_line().await? {
                return Ok(line);
            }
            self.receive().await?;
        }
    }

    /// The next of the lines that have come. A call that is dropped loses nothing.
    async fn received_line(&mut self) -> Result<Option<OwnedLine>, CodecError> {
        if self.taken == TURN {
            self.taken = 0;
            yield_now().await;
        }
        self.taken += 1;
        self.codec.decode(&mut self.input)
    }

    /// Keeps a line for the end of a transfer.
    pub fn wait(&mut self, line: OwnedLine) {
        self.waiting.push_back(line);
    }

    /// Whether a line waits.
    pub fn has_waiting(&self) -> bool {
        !self.waiting.is_empty()
    }

    /// Whether another line may wait. Where none may, the client's lines stay unread. So is its end
    /// after QUIT, which ends no transfer (RFC 959, section 4.1.1).
    pub fn may_wait(&self) -> bool {
        let quits = |line: &OwnedLine| matches!(line.event, Event::Command(Command::Quit));
        self.waiting.len() < WAITING && !self.waiting.iter().any(quits)
    }

    /// Takes a reply that is to be sent.
    pub fn reply(&mut self, reply: Reply) -> Result<(), CodecError> {
        let text = String::from_utf8_lossy(reply.lines().next().unwrap_or_default());
        tracing::debug!("{} {}", reply.code(), text.escape_debug());
        self.codec.encode(reply, &mut self.output)
    }

    /// Sends the replies.
    pub async fn flush(&mut self) -> io::Result<()> {
        if self.output.is_empty() {
            return Ok(());
        }
        let sent = async {
            self.stream.write_all_buf(&mut self.output).await?;
            self.stream.flush().await
        };
        timeout(self.patience, sent).await?
    }

    /// Reads what has come.
    async fn receive(&mut self) -> io::Result<()> {
        let from = self.input.len();
        self.input.reserve(READ);
        if self.stream.read_buf(&mut self.input).await? == 0 {
            return Err(ErrorKind::UnexpectedEof.into());
        }
        self.telnet.strip(&mut self.input, from);
        Ok(())
    }

    /// Turns to TLS. What came in clear text and was not read yet is dropped with this codec (RFC
    /// 4217, section 15.1; RFC 3207, section 4.2).
    pub async fn accept_tls(self, acceptor: &TlsAcceptor) -> io::Result<Control> {
        let stream = self.stream.accept_tls(acceptor, self.patience).await?;
        Ok(Control::new(stream, self.patience))
    }

    /// Sends the replies and the end.
    pub async fn close(mut self, patience: Duration) {
        if self.flush().await.is_ok() {
            self.stream.close(patience).await;
        }
    }
}
