//! Data connections: one end is the client's and one the server's.
use crate::server_tls::ToServer;
use crate::stream::Stream;
use crate::tls::OfConnection;
use std::future::Future;
use std::io::{self, ErrorKind};
use std::sync::atomic::{AtomicU64, Ordering::Relaxed};
use std::sync::Arc;
use std::time::Duration;
use tokio::io::{split, AsyncReadExt, AsyncWriteExt, ReadHalf, WriteHalf};
use tokio::net::TcpStream;
use tokio::sync::watch;
use tokio::time::{sleep, timeout};
use unftp_control::DataPort;

/// How many bytes are read at a time.
const PIECE: usize = 128 * 1024;

/// How long an end may take to connect to the relay, and to begin TLS.
const ACCEPTING: Duration = Duration::from_secs(60);
/// How long a connection that the server has opened may take to be accepted.
const ARRIVING: Duration = Duration::from_secs(1);
/// How long the relay takes to connect to an end.
const CONNECTING: Duration = Duration::from_secs(30);

/// Which end connects to the relay.
#[derive(Clone, Copy, Debug, PartialEq, Eq)]
pub enum Direction {
    /// The client, after PASV or EPSV.
    Passive,
    /// The server, after PORT or EPRT.
    Active,
}

/// Where a data connection comes from and where it leads to.
pub struct Route {
    /// Which end connects to the relay.
    pub direction: Direction,
    /// The relay's data port toward the client.
    pub client: DataPort,
    /// The one toward the server. One of both listens, and the other connects.
    pub server: DataPort,
    /// What turns the server's end to TLS, if anything.
    pub server_tls: Option<Arc<ToServer>>,
    /// How long nothing may be sent in either direction.
    pub patience: Duration,
}

/// What turns the client's end to TLS, if anything.
type ClientTls = Option<Arc<OfConnection>>;

/// How far a transfer is.
#[derive(Clone, Copy, Debug, PartialEq, Eq)]
pub enum Progress {
    /// No end has connected to the relay yet.
    Awaited,
    /// What the server sends is not yet all sent to the client.
    Open,
    /// All that the server sent was sent to the client.
    Delivered,
    /// There was no connection, or it was lost.
    Failed,
}

/// A data connection that is awaited or open. It is closed when this is dropped.
pub struct Transfer {
    progress: watch::Receiver<Progress>,
    tls: watch::Sender<ClientTls>,
}

impl Transfer {
    /// Waits for the data connection of a route, and relays it. The client's end is protected by
    /// this, if anything.
    pub fn start(route: Route, tls: ClientTls) -> Transfer {
        let (report, progress) = watch::channel(Progress::Awaited);
        let (tls, level) = watch::channel(tls);
        tokio::spawn(async move {
            let relayed = relay(route, &report, level).await;
            if let Err(error) = relayed {
                tracing::debug!(%error, "data connection");
                if *report.borrow() != Progress::Delivered {
                    report.send_replace(Progress::Failed);
                }
            }
        });
        Transfer { progress, tls }
    }

    /// Protects the client's end by this from now on. A connection that is open already is lost:
    /// its ends may not agree on how it is protected (RFC 4217, section 7).
    pub fn protect(&self, tls: ClientTls) {
        self.tls.send_replace(tls);
    }

    /// How far it is.
    pub fn progress(&self) -> Progress {
        *self.progress.borrow()
    }

    /// Waits until it is no more open, where the server has sent its final reply. Where no end has
    /// connected by then, it waits a short while for that.
    pub fn ended(&self) -> impl Future<Output = ()> {
        let mut progress = self.progress.clone();
        async move {
            if timeout(ARRIVING, change(&mut progress, Progress::Awaited)).await.is_ok() {
                change(&mut progress, Progress::Open).await;
            }
        }
    }
}

/// Waits until the progress is another.
async fn change(progress: &mut watch::Receiver<Progress>, before: Progress) {
    while *progress.borrow_and_update() == before && progress.changed().await.is_ok() {}
}

async fn relay(
    route: Route,
    report: &watch::Sender<Progress>,
    mut level: watch::Receiver<ClientTls>,
) -> io::Result<()> {
    let patience = route.patience;
    let (client, server) = open(route, report, &mut level).await?;
    let (client_reader, client_writer) = split(client);
    let (server_reader, server_writer) = split(server);
    let mut down = Flow::new(server_reader, client_writer);
    let mut up = Flow::new(client_reader, server_writer);
    let moved = AtomicU64::new(0);
    let delivered = async {
        let copied = down.copy(&moved).await;
        // a client may close its end before that of an upload
        if down.is_whole {
            report.send_replace(Progress::Delivered);
        }
        copied
    };
    let copied = tokio::select! {
        copied = async { tokio::try_join!(delivered, up.copy(&moved)).map(drop) } => copied,
        _ = stalled(&moved, patience) => Err(ErrorKind::TimedOut.into()),
        _ = level.changed() => Err(ErrorKind::Interrupted.into()),
    };
    let (is_delivered, is_stored) = (down.is_done, up.is_done);
    let client = up.reader.unsplit(down.writer);
    let server = down.reader.unsplit(up.writer);
    // an end that comes too early must not look as that of the file
    if !is_delivered {
        reset(client.tcp());
    }
    if !is_stored {
        reset(server.tcp());
    }
    copied
}

/// Both ends, once they are open and protected, the client's as it is to be then. Either may begin
/// before the other: a server may send its preliminary reply before or after that.
async fn open(
    route: Route,
    report: &watch::Sender<Progress>,
    level: &mut watch::Receiver<ClientTls>,
) -> io::Result<(Stream, Stream)> {
    let server_tls = route.server_tls.clone();
    let (client, server) = tokio::select! {
        connected = connect_both(route, report) => connected?,
        () = dropped(level.clone()) => return Err(ErrorKind::Interrupted.into()),
    };
    // what ends before that must not look as an empty file
    reset(&server);
    if server_tls.is_some() {
        reset(&client);
    }
    let client_tls = level.borrow_and_update().clone();
    let protected =
        async { tokio::try_join!(protect(client, client_tls), protect_server(server, server_tls)) };
    let (client, server) = tokio::select! {
        protected = protected => protected?,
        _ = level.changed() => return Err(ErrorKind::Interrupted.into()),
    };
    client.tcp().set_linger(None)?;
    server.tcp().set_linger(None)?;
    Ok((client, server))
}

/// Waits until the sender is dropped.
async fn dropped(mut level: watch::Receiver<ClientTls>) {
    while level.changed().await.is_ok() {}
}

/// The client's end and the server's.
async fn connect_both(
    mut route: Route,
    report: &watch::Sender<Progress>,
) -> io::Result<(TcpStream, TcpStream)> {
    let (listening, connecting) = match route.direction {
        Direction::Passive => (&mut route.client, &mut route.server),
        Direction::Active => (&mut route.server, &mut route.client),
    };
    let accepted = listening.open(ACCEPTING).await?;
    report.send_replace(Progress::Open);
    let connected = connecting.open(CONNECTING).await.map_err(|error| {
        reset(&accepted);
        error
    })?;
    Ok(match route.direction {
        Direction::Passive => (accepted, connected),
        Direction::Active => (connected, accepted),
    })
}

/// The client's end, under TLS where that is to be.
async fn protect(client: TcpStream, tls: ClientTls) -> io::Result<Stream> {
    match tls {
        Some(tls) => {
            let accepted = timeout(ACCEPTING, tls.accept_data(client)).await??;
            Ok(Stream::Tls(Box::new(accepted.into())))
        }
        None => Ok(Stream::Clear(client)),
    }
}

/// The server's end, under TLS where that is to be.
async fn protect_server(server: TcpStream, tls: Option<Arc<ToServer>>) -> io::Result<Stream> {
    match tls {
        Some(tls) => tls.turn_data(server, ACCEPTING).await,
        None => Ok(Stream::Clear(server)),
    }
}

/// Lets the other end see a fault and no end of file, once this is dropped.
fn reset(tcp: &TcpStream) {
    let _ = tcp.set_linger(Some(Duration::ZERO));
}

/// Waits until nothing has moved for so long.
async fn stalled(moved: &AtomicU64, patience: Duration) {
    let mut before = None;
    while before != Some(moved.load(Relaxed)) {
        before = Some(moved.load(Relaxed));
        sleep(patience).await;
    }
}

/// One direction of a data connection.
struct Flow {
    reader: ReadHalf<Stream>,
    writer: WriteHalf<Stream>,
    /// Whether all that came was sent.
    is_whole: bool,
    /// Whether the end was sent, too.
    is_done: bool,
}

impl Flow {
    fn new(reader: ReadHalf<Stream>, writer: WriteHalf<Stream>) -> Flow {
        Flow { reader, writer, is_whole: true, is_done: false }
    }

    /// Sends on all that comes, and its end. It counts what has moved.
    async fn copy(&mut self, moved: &AtomicU64) -> io::Result<()> {
        let mut piece = vec![0; PIECE];
        loop {
            let count = self.reader.read(&mut piece).await?;
            if count == 0 {
                break;
            }
            self.is_whole = false;
            self.writer.write_all(&piece[..count]).await?;
            self.writer.flush().await?;
            moved.fetch_add(1, Relaxed);
        }
        self.writer.shutdown().await?;
        (self.is_whole, self.is_done) = (true, true);
        Ok(())
    }
}
