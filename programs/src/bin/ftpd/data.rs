//! Open data connections, in clear text and under TLS.
use rustix::io::ioctl_fionread;
use std::io::{self, ErrorKind, Read, Write};
use std::net::{self, Shutdown};
use std::sync::atomic::{AtomicBool, Ordering};
use std::sync::Arc;
use std::time::Duration;
use tokio::net::TcpStream;
use tokio::time::timeout;
use tokio_rustls::rustls::{self, ServerConnection};
use unftp_control_programs::tls::OfConnection;

/// How many bytes of a client are dropped that it sends where it is to read.
const UNREAD: u64 = 1 << 20;

/// An open data connection.
pub struct DataStream {
    tcp: Arc<net::TcpStream>,
    tls: Option<ServerConnection>,
    /// Whether the server has ended it, so that its end is not the client's.
    is_hung_up: Arc<AtomicBool>,
}

/// Ends a data connection when it is dropped, also where a call waits for that.
pub struct HangUp {
    tcp: Arc<net::TcpStream>,
    is_hung_up: Arc<AtomicBool>,
}

impl Drop for HangUp {
    fn drop(&mut self) {
        self.is_hung_up.store(true, Ordering::SeqCst);
        // where the client was first, it is no more connected
        let _ = self.tcp.shutdown(Shutdown::Both);
    }
}

impl DataStream {
    /// In clear text.
    pub fn clear(tcp: net::TcpStream) -> DataStream {
        DataStream { tcp: Arc::new(tcp), tls: None, is_hung_up: Arc::default() }
    }

    /// Under TLS, which begins within a time.
    pub async fn accept_tls(
        tcp: net::TcpStream,
        tls: &OfConnection,
        patience: Duration,
    ) -> io::Result<DataStream> {
        let accepting = tls.accept_data(TcpStream::from_std(tcp)?);
        let (tcp, tls) = timeout(patience, accepting).await??.into_inner();
        let tcp = Arc::new(tcp.into_std()?);
        Ok(DataStream { tcp, tls: Some(tls), is_hung_up: Arc::default() })
    }

    /// Lets each call wait, for so long at most.
    pub fn wait_at_most(&self, patience: Duration) -> io::Result<()> {
        self.tcp.set_nonblocking(false)?;
        self.tcp.set_read_timeout(Some(patience))?;
        self.tcp.set_write_timeout(Some(patience))
    }

    /// What ends it.
    pub fn hang_up(&self) -> HangUp {
        HangUp { tcp: self.tcp.clone(), is_hung_up: self.is_hung_up.clone() }
    }

    /// Whether it is under TLS.
    pub fn is_tls(&self) -> bool {
        self.tls.is_some()
    }

    /// The connection under it.
    pub fn tcp(&self) -> &net::TcpStream {
        &self.tcp
    }

    /// Sends the end.
    pub fn finish(&mut self) -> io::Result<()> {
        if let Some(tls) = &mut self.tls {
            tls.send_close_notify();
            while tls.wants_write() {
                match tls.write_tls(&mut &*self.tcp) {
                    Err(error) if error.kind() == ErrorKind::Interrupted => {}
                    written => drop(written?),
                }
            }
        }
        self.tcp.shutdown(Shutdown::Write)
    }

    /// Whether the client has sent what nobody has read.
    pub fn has_unread(&self) -> bool {
        ioctl_fionread(&*self.tcp).is_ok_and(|count| count > 0)
    }

    /// Reads and drops what the client sends, up to its end.
    pub fn drop_unread(&self) {
        let _ = io::copy(&mut (&*self.tcp).take(UNREAD), &mut io::sink());
    }
}

impl Read for DataStream {
    /// An end that the server has made is an error. Under TLS, so is one without `close_notify`, that
    /// somebody else may have made: a file may not be whole.
    fn read(&mut self, part: &mut [u8]) -> io::Result<usize> {
        let Some(tls) = &mut self.tls else {
            let count = (&*self.tcp).read(part)?;
            if count == 0 && self.is_hung_up.load(Ordering::SeqCst) {
                return Err(ErrorKind::ConnectionAborted.into());
            }
            return Ok(count);
        };
        let count = rustls::Stream::new(tls, &mut &*self.tcp).read(part)?;
        let state = tls.process_new_packets();
        if count == 0 && !state.is_ok_and(|state| state.peer_has_closed()) {
            return Err(ErrorKind::UnexpectedEof.into());
        }
        Ok(count)
    }
}

impl Write for DataStream {
    fn write(&mut self, part: &[u8]) -> io::Result<usize> {
        match &mut self.tls {
            Some(tls) => rustls::Stream::new(tls, &mut &*self.tcp).write(part),
            None => (&*self.tcp).write(part),
        }
    }

    fn flush(&mut self) -> io::Result<()> {
        match &mut self.tls {
            Some(tls) => rustls::Stream::new(tls, &mut &*self.tcp).flush(),
            None => Ok(()),
        }
    }
}
