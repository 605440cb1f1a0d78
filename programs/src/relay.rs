//! A relay between clients and a server: it decides on each line of a client, and passes on replies
//! and data connections. The programs `ftp-proxy` and `ftp-record` are one.
pub mod command_line;
mod conversation;
mod data;
pub mod exchange;
mod lines;
mod protection;
pub mod rules;
mod server;
mod session;

use crate::listening::Connected;
use crate::ports::Passive;
use crate::server_tls::ServerTls;
use crate::tls::TlsAcceptors;
use exchange::Exchange;
use rules::Allowed;
use std::sync::atomic::{AtomicU64, Ordering::Relaxed};
use std::sync::Arc;
use std::time::Duration;
use tokio::sync::mpsc;
use tracing::Instrument;

/// The limits on a session.
#[derive(Clone, Copy, Debug)]
pub struct Limits {
    /// How many bytes a line has at most, with its line end. A server that gets a longer one than
    /// it takes may send no reply, or two.
    pub line: usize,
    /// How long neither side may send anything.
    pub idle: Duration,
    /// How long nothing may be sent over an open data connection.
    pub data: Duration,
}

/// What clients are told of data connections, and asked for.
#[derive(Clone, Debug)]
pub struct Data {
    /// What passive ones have.
    pub passive: Passive,
    /// Whether names, passwords and files are only taken and sent under TLS.
    pub require_tls: bool,
}

/// What stands between clients and a server.
#[derive(Clone)]
pub struct Relay {
    /// The server, as `HOST:PORT`.
    pub server: String,
    /// The verbs that it may be sent.
    pub allowed: Allowed,
    /// What protects the clients' connections, where they ask for it.
    pub tls: Option<TlsAcceptors>,
    /// What protects the server's connections, and checks its certificate, where that is to be.
    pub server_tls: Option<ServerTls>,
    /// What clients are told of data connections.
    pub data: Data,
    /// The limits on each session.
    pub limits: Limits,
    /// Where the exchanges go, beside the log.
    pub exchanges: Option<mpsc::Sender<Exchange>>,
}

impl Relay {
    /// Lets a client have its session with the server.
    pub async fn session(self: Arc<Self>, connected: Connected) {
        static SESSIONS: AtomicU64 = AtomicU64::new(1);
        let number = SESSIONS.fetch_add(1, Relaxed);
        let span = tracing::info_span!("session", number, client = %connected.peer);
        async move {
            match session::serve(self, number, connected).await {
                Ok(()) => tracing::info!("ended"),
                Err(error) => tracing::info!(%error, "ended"),
            }
        }
        .instrument(span)
        .await;
    }
}
