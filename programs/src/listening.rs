//! Listeners with limits and a clean end.
use listenfd::ListenFd;
use rustix::process::{getrlimit, Resource};
use std::collections::HashMap;
use std::env;
use std::future::{poll_fn, Future};
use std::io;
use std::net::{IpAddr, SocketAddr};
use std::sync::{Arc, Mutex, PoisonError};
use std::task::Poll;
use std::time::Duration;
use tokio::net::{TcpListener, TcpStream};
use tokio::signal::unix::{signal, SignalKind};
use tokio::sync::{watch, Semaphore};
use tokio::task::JoinSet;
use tokio::time::{sleep, timeout};
use unftp_control::unmapped;

/// How many connections there may be.
#[derive(Clone, Copy, Debug)]
pub struct Limits {
    /// Of all clients.
    pub connections: usize,
    /// Of one address.
    pub per_address: usize,
}

/// Where a program listens.
#[derive(Clone, Copy, Debug, PartialEq, Eq)]
pub struct Place {
    /// The address.
    pub address: SocketAddr,
    /// Whether TLS begins at once there, before the greeting.
    pub is_implicit: bool,
}

/// What listens at a place.
pub struct Listener {
    tcp: TcpListener,
    /// Whether TLS begins at once there.
    pub is_implicit: bool,
}

/// Listens at each place.
///
/// # Errors
///
/// Where it can't listen at one of them, which the error names.
pub async fn bind(places: &[Place]) -> io::Result<Vec<Listener>> {
    let mut listeners = Vec::new();
    for &Place { address, is_implicit } in places {
        let tcp = TcpListener::bind(address).await;
        let tcp =
            tcp.map_err(|error| io::Error::new(error.kind(), format!("{address}: {error}")))?;
        listeners.push(Listener { tcp, is_implicit });
    }
    Ok(listeners)
}

/// What systemd listens at for the program: each socket of its units (sd_listen_fds(3)). TLS begins at
/// once where the unit's `FileDescriptorName` is `implicit-tls`.
///
/// # Errors
///
/// Where one is no socket that listens.
pub fn given() -> io::Result<Vec<Listener>> {
    let names = env::var("LISTEN_FDNAMES").unwrap_or_default();
    let mut given = ListenFd::from_env();
    let mut listeners = Vec::new();
    for index in 0..given.len() {
        let tcp = given.take_tcp_listener(index)?.ok_or(io::ErrorKind::InvalidInput)?;
        tcp.set_nonblocking(true)?;
        let is_implicit = names.split(':').nth(index) == Some("implicit-tls");
        listeners.push(Listener { tcp: TcpListener::from_std(tcp)?, is_implicit });
    }
    Ok(listeners)
}

/// The ports, with a space between each two.
///
/// # Errors
///
/// Where the system doesn't say what a port is.
pub fn ports(listeners: &[Listener]) -> io::Result<String> {
    let ports = listeners.iter().map(|it| Ok(it.tcp.local_addr()?.port().to_string()));
    Ok(ports.collect::<io::Result<Vec<_>>>()?.join(" "))
}

/// Changes once, when the program is to end.
pub type Stop = watch::Receiver<()>;

/// A client that has connected.
pub struct Connected {
    /// Its connection.
    pub tcp: TcpStream,
    /// Its address.
    pub peer: SocketAddr,
    /// Whether TLS begins at once.
    pub is_implicit: bool,
    /// Whether there are too many connections, so that it is only to be refused.
    pub is_refused: bool,
    /// When the program is to end.
    pub stop: Stop,
}

/// How many connections may be refused at a time. Beyond them one is closed without a word.
const REFUSALS: usize = 16;

/// How many descriptors there are beside those of sessions, those of connections that are refused among
/// them.
const OTHERS: usize = 40;

/// How many connections each address has.
type Counts = Arc<Mutex<HashMap<IpAddr, usize>>>;

/// A connection that is counted until this is dropped.
struct Counted {
    counts: Counts,
    address: IpAddr,
}

impl Counted {
    /// Counts a connection, where it is within the limits.
    fn new(counts: &Counts, address: IpAddr, limits: Limits) -> Option<Counted> {
        let mut count_of = counts.lock().unwrap_or_else(PoisonError::into_inner);
        let is_within = count_of.values().sum::<usize>() < limits.connections
            && count_of.get(&address).copied().unwrap_or(0) < limits.per_address;
        is_within.then(|| {
            *count_of.entry(address).or_default() += 1;
            Counted { counts: counts.clone(), address }
        })
    }
}

impl Drop for Counted {
    fn drop(&mut self) {
        let mut count_of = self.counts.lock().unwrap_or_else(PoisonError::into_inner);
        if let Some(count) = count_of.get_mut(&self.address) {
            *count -= 1;
            if *count == 0 {
                count_of.remove(&self.address);
            }
        }
    }
}

/// Lets each client that connects to one of the listeners have its session, until SIGINT or SIGTERM
/// comes. Then it waits for the sessions to end, for so long at most. SIGUSR1 and SIGUSR2 are
/// ignored.
///
/// # Errors
///
/// Where signals can't be received.
pub async fn serve<S, F>(
    listeners: Vec<Listener>,
    limits: Limits,
    patience: Duration,
    session: S,
) -> io::Result<()>
where
    S: Fn(Connected) -> F,
    F: Future<Output = ()> + Send + 'static,
{
    let counts = Counts::default();
    let refusals = Arc::new(Semaphore::new(REFUSALS));
    let (stopping, stop) = watch::channel(());
    let mut interrupted = signal(SignalKind::interrupt())?;
    let mut terminated = signal(SignalKind::terminate())?;
    ignore_user_signals()?;
    let mut sessions = JoinSet::new();
    loop {
        tokio::select! {
            accepted = accept(&listeners) => match accepted {
                Ok((tcp, peer, is_implicit)) => {
                    let counted = Counted::new(&counts, unmapped(peer.ip()), limits);
                    let (is_refused, stop) = (counted.is_none(), stop.clone());
                    let refusal = is_refused.then(|| refusals.clone().try_acquire_owned());
                    let Ok(refusal) = refusal.transpose() else { continue };
                    let talk = session(Connected { tcp, peer, is_implicit, is_refused, stop });
                    sessions.spawn(async move {
                        talk.await;
                        drop((counted, refusal));
                    });
                }
                // as where no file descriptor is left
                Err(error) => {
                    tracing::warn!(%error, "no connection could be accepted");
                    sleep(Duration::from_millis(100)).await;
                }
            },
            Some(_) = sessions.join_next() => {}
            _ = interrupted.recv() => break,
            _ = terminated.recv() => break,
        }
    }
    drop((listeners, stopping));
    let ended = async { while sessions.join_next().await.is_some() {} };
    let _ = timeout(patience, ended).await;
    Ok(())
}

/// Warns where so many connections, each of which may need so many descriptors, may need more than there
/// may be.
pub fn compare_descriptors(connections: usize, of_a_session: usize) {
    let needed = (connections * of_a_session + OTHERS) as u64;
    if let Some(allowed) = getrlimit(Resource::Nofile).current.filter(|it| *it < needed) {
        tracing::warn!(
            "{connections} connections may need {needed} descriptors, and `ulimit -n` is {allowed}"
        );
    }
}

/// Ignores SIGUSR1 and SIGUSR2, which would end the program.
fn ignore_user_signals() -> io::Result<()> {
    for kind in [SignalKind::user_defined1(), SignalKind::user_defined2()] {
        // tokio receives it from now on, also without this stream
        drop(signal(kind)?);
    }
    Ok(())
}

/// Accepts the next client of any of the listeners, and returns whether TLS begins at once.
async fn accept(listeners: &[Listener]) -> io::Result<(TcpStream, SocketAddr, bool)> {
    poll_fn(|cx| {
        let mut accepted = listeners.iter().map(|listener| {
            let accepted = listener.tcp.poll_accept(cx);
            accepted.map_ok(|(tcp, peer)| (tcp, peer, listener.is_implicit))
        });
        accepted.find(Poll::is_ready).unwrap_or(Poll::Pending)
    })
    .await
}
