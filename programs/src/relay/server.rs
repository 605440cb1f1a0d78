//! The control connection to the server, in clear text or under TLS.
use crate::server_tls::{ServerTls, ToServer};
use crate::stream::Stream;
use std::io::{self, ErrorKind};
use std::sync::Arc;
use std::time::Duration;
use tokio::io::{AsyncReadExt, AsyncWriteExt};
use tokio::net::TcpStream;
use tokio::time::timeout;
use unftp_control::{Client, ReceivedReply};

/// How long connecting to the server may take.
const CONNECTING: Duration = Duration::from_secs(20);
/// How long a TLS handshake may take, with the replies before and after it.
const HANDSHAKE: Duration = Duration::from_secs(20);
/// How many bytes are read at a time.
const PIECE: usize = 1024;

/// A server that has been connected to.
pub struct Server {
    /// The control connection.
    pub stream: Stream,
    /// What turns its data connections to TLS, where they are under it.
    pub tls: Option<Arc<ToServer>>,
    /// What it has sent already.
    pub greeting: Vec<u8>,
}

/// Why there is no server.
pub enum Failure {
    /// It can't be connected to.
    Unreachable(io::Error),
    /// It doesn't speak TLS as it has to, or its certificate is not right.
    Unprotected(io::Error),
}

impl Server {
    /// Connects, and turns to TLS where that is to be.
    pub async fn connect(server: &str, tls: Option<&ServerTls>) -> Result<Server, Failure> {
        let tcp = connect(server).await.map_err(Failure::Unreachable)?;
        let Some(tls) = tls.map(ServerTls::of_connection) else {
            return Ok(Server { stream: Stream::Clear(tcp), tls: None, greeting: Vec::new() });
        };
        let protected = timeout(HANDSHAKE, protect(tcp, tls)).await;
        protected.unwrap_or_else(|_| Err(ErrorKind::TimedOut.into())).map_err(Failure::Unprotected)
    }
}

async fn connect(server: &str) -> io::Result<TcpStream> {
    let tcp = timeout(CONNECTING, TcpStream::connect(server)).await??;
    tcp.set_nodelay(true)?;
    socket2::SockRef::from(&tcp).set_keepalive(true)?;
    Ok(tcp)
}

/// Turns the connection to TLS (RFC 4217), and its data connections with it.
async fn protect(tcp: TcpStream, tls: ToServer) -> io::Result<Server> {
    let mut stream = Stream::Clear(tcp);
    let mut dialogue = Client::new();
    let greeting = reply(&mut stream, &mut dialogue).await?;
    if greeting.code() < 400 {
        ask(&mut stream, &mut dialogue, b"AUTH TLS\r\n", 234).await?;
        // what came after it in clear text may be a stranger's (RFC 3207, section 4.2)
        if !dialogue.bytes().is_empty() {
            return Err(refused("it goes on in clear text after 234"));
        }
        let Stream::Clear(tcp) = stream else { return Err(ErrorKind::InvalidInput.into()) };
        stream = tls.turn_control(tcp, HANDSHAKE).await?;
        ask(&mut stream, &mut dialogue, b"PBSZ 0\r\n", 200).await?;
        ask(&mut stream, &mut dialogue, b"PROT P\r\n", 200).await?;
    }
    let greeting = [greeting.bytes(), dialogue.bytes()].concat();
    Ok(Server { stream, tls: Some(Arc::new(tls)), greeting })
}

/// Sends a line that is to be answered by this code.
async fn ask(stream: &mut Stream, dialogue: &mut Client, line: &[u8], code: u16) -> io::Result<()> {
    let mut output = Vec::new();
    dialogue.send_line(line, &mut output).map_err(io::Error::other)?;
    stream.write_all(&output).await?;
    stream.flush().await?;
    let reply = reply(stream, dialogue).await?;
    if reply.code() != code {
        let line = String::from_utf8_lossy(line);
        return Err(refused(&format!("it answers {} by {}", line.trim_end(), reply.code())));
    }
    Ok(())
}

/// The next final reply.
async fn reply(stream: &mut Stream, dialogue: &mut Client) -> io::Result<ReceivedReply<'static>> {
    loop {
        while let Some(next) = dialogue.next_reply().map_err(io::Error::other)? {
            if !next.reply.is_preliminary() {
                return Ok(next.reply.into_owned());
            }
        }
        let mut piece = [0; PIECE];
        match stream.read(&mut piece).await? {
            0 => return Err(ErrorKind::UnexpectedEof.into()),
            count => dialogue.receive(&piece[..count]).map_err(io::Error::other)?,
        }
    }
}

fn refused(why: &str) -> io::Error {
    io::Error::new(ErrorKind::ConnectionRefused, format!("no TLS: {why}"))
}
