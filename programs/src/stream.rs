//! A connection in clear text or under TLS.
use std::io::{self, ErrorKind};
use std::pin::Pin;
use std::task::{ready, Context, Poll};
use std::time::Duration;
use tokio::io::{copy, sink, AsyncRead, AsyncWrite, AsyncWriteExt, ReadBuf};
use tokio::net::TcpStream;
use tokio::time::timeout;
use tokio_rustls::rustls::ServerName;
use tokio_rustls::{TlsAcceptor, TlsConnector, TlsStream};

/// A control connection or a data connection.
pub enum Stream {
    /// In clear text.
    Clear(TcpStream),
    /// Under TLS (RFC 4217).
    Tls(Box<TlsStream<TcpStream>>),
}

impl Stream {
    /// Takes a client's control connection. A client that aborts sends a byte as urgent data (RFC
    /// 959, section 4.1.3), which so comes in its place among the others.
    pub fn control(tcp: TcpStream) -> io::Result<Stream> {
        let socket = socket2::SockRef::from(&tcp);
        socket.set_out_of_band_inline(true)?;
        socket.set_keepalive(true)?;
        tcp.set_nodelay(true)?;
        Ok(Stream::Clear(tcp))
    }

    /// Whether it is under TLS.
    pub fn is_tls(&self) -> bool {
        matches!(self, Stream::Tls(_))
    }

    /// The connection under it.
    pub fn tcp(&self) -> &TcpStream {
        match self {
            Stream::Clear(tcp) => tcp,
            Stream::Tls(tls) => tls.get_ref().0,
        }
    }

    /// Turns a connection to a server of this name to TLS, within a time.
    pub async fn connect_tls(
        tcp: TcpStream,
        connector: &TlsConnector,
        name: ServerName,
        patience: Duration,
    ) -> io::Result<Stream> {
        let connected = timeout(patience, connector.connect(name, tcp)).await;
        let connected = connected.map_err(io::Error::from)?;
        Ok(Stream::Tls(Box::new(connected?.into())))
    }

    /// Turns a client's connection to TLS, within a time.
    pub async fn accept_tls(
        self,
        acceptor: &TlsAcceptor,
        patience: Duration,
    ) -> io::Result<Stream> {
        match self {
            Stream::Clear(tcp) => {
                let accepted =
                    timeout(patience, acceptor.accept(tcp)).await.map_err(io::Error::from)?;
                Ok(Stream::Tls(Box::new(accepted?.into())))
            }
            Stream::Tls(_) => Err(io::Error::new(ErrorKind::InvalidInput, "under TLS already")),
        }
    }

    /// Sends what is written and the end, and waits for the other's end, within a time. To close over
    /// unread bytes resets a connection, and what was sent last may be lost: so what still comes is
    /// read and dropped.
    pub async fn close(mut self, patience: Duration) {
        let closed = async {
            self.shutdown().await?;
            copy(&mut self, &mut sink()).await
        };
        let _ = timeout(patience, closed).await;
    }
}

impl AsyncRead for Stream {
    fn poll_read(
        self: Pin<&mut Self>,
        cx: &mut Context<'_>,
        buf: &mut ReadBuf<'_>,
    ) -> Poll<io::Result<()>> {
        match self.get_mut() {
            // A read ends before an urgent byte, and tokio's `poll_read` would take a short one for
            // all that has come.
            Stream::Clear(tcp) => loop {
                ready!(tcp.poll_read_ready(cx))?;
                match tcp.try_read(buf.initialize_unfilled()) {
                    Ok(count) => {
                        buf.advance(count);
                        return Poll::Ready(Ok(()));
                    }
                    Err(error) if error.kind() == ErrorKind::WouldBlock => {}
                    Err(error) => return Poll::Ready(Err(error)),
                }
            },
            Stream::Tls(tls) => Pin::new(tls).poll_read(cx, buf),
        }
    }
}

impl AsyncWrite for Stream {
    fn poll_write(
        self: Pin<&mut Self>,
        cx: &mut Context<'_>,
        bytes: &[u8],
    ) -> Poll<io::Result<usize>> {
        match self.get_mut() {
            Stream::Clear(tcp) => Pin::new(tcp).poll_write(cx, bytes),
            Stream::Tls(tls) => Pin::new(tls).poll_write(cx, bytes),
        }
    }

    fn poll_flush(self: Pin<&mut Self>, cx: &mut Context<'_>) -> Poll<io::Result<()>> {
        match self.get_mut() {
            Stream::Clear(tcp) => Pin::new(tcp).poll_flush(cx),
            Stream::Tls(tls) => Pin::new(tls).poll_flush(cx),
        }
    }

    fn poll_shutdown(self: Pin<&mut Self>, cx: &mut Context<'_>) -> Poll<io::Result<()>> {
        match self.get_mut() {
            Stream::Clear(tcp) => Pin::new(tcp).poll_shutdown(cx),
            Stream::Tls(tls) => Pin::new(tls).poll_shutdown(cx),
        }
    }
}
