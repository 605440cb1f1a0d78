//! `ftpd FOLDER` serves a folder over FTP: anybody may read it, and users may write. It prints its
//! ports as one line once it listens. `ftpd --help` has its options.
//!
//! ```sh
//! echo "anna:$(echo secret | ftpd --hash-password)" > users
//! ftpd --users users --certificate certificate.pem --key key.pem FOLDER
//! ```
//!
//! What each file shows: `control` lines and replies, `session` and `transferring` a transfer beside
//! them, `commands`, `ports` and `files` the answers, `record` the log, `transfer` and `data` data
//! connections, most of which have a thread while they are open, `upload` files that are received,
//! `folder` paths that the kernel keeps in the folder.
//!
//! lftp sends an address as the name of the server, which RFC 6066 forbids and rustls 0.20 refuses:
//! `set ssl:use-sni no` there, or name the server.
mod arguments;
mod commands;
mod config;
mod control;
mod data;
mod devices;
mod files;
mod folder;
mod guesses;
mod line;
mod listing;
mod record;
mod replies;
mod representation;
mod server;
mod session;
mod transfer;
mod transferring;
mod upload;
mod users;

use arguments::{Settings, Task};
use server::Server;
use std::io::{self, Read, Write};
use std::process::ExitCode;
use std::sync::Arc;
use std::time::Duration;
use tokio::signal::unix::{signal, Signal, SignalKind};
use tokio::sync::watch;
use tokio::task::spawn_blocking;
use unftp_control_programs::{listening, log};

/// How many descriptors a session needs for its connection, a listener or a data connection, and a
/// file or a directory with its entries.
const OF_A_SESSION: usize = 4;
/// How long transfers may go on after the signal that ends the program.
const GRACE: Duration = Duration::from_secs(10);
/// How long sessions may take to close after that.
const CLOSING: Duration = Duration::from_secs(6);

fn main() -> ExitCode {
    let done = arguments::task().and_then(|task| match task {
        Task::HashPassword { rounds } => print_hash(rounds),
        Task::Check(settings) => check(*settings),
        Task::Serve(settings) => start(*settings),
    });
    match done {
        Ok(()) => ExitCode::SUCCESS,
        Err(error) => {
            // where this fails too, the status remains
            let _ = writeln!(io::stderr(), "ftpd: {error}");
            ExitCode::FAILURE
        }
    }
}

/// Prints the hash of the password on standard input.
fn print_hash(rounds: u32) -> io::Result<()> {
    let mut password = Vec::new();
    io::stdin().read_to_end(&mut password)?;
    let password = password.strip_suffix(b"\n").unwrap_or(&password);
    let hash = users::hash_password(password, rounds);
    let hash = hash.map_err(|error| io::Error::new(io::ErrorKind::InvalidInput, error))?;
    print(&hash)
}

/// Prints a line on standard output.
fn print(line: &str) -> io::Result<()> {
    writeln!(io::stdout(), "{line}").map_err(|error| about("standard output", error))
}

/// Reads all that serving the folder needs.
fn check(settings: Settings) -> io::Result<()> {
    settings.common.identity.check()?;
    Server::read(settings).map(drop)
}

/// Starts what serves the folder.
fn start(settings: Settings) -> io::Result<()> {
    settings.common.identity.set_umask();
    let _end = log::start(settings.common.log, settings.common.log_format)?;
    // All sessions wait in one thread, which spares them a hand-over from one to another. What takes
    // long has a thread of its own: a transfer or a hash, of which each session may have one, and
    // what SIGHUP asks for.
    let mut runtime = tokio::runtime::Builder::new_current_thread();
    runtime.enable_all().max_blocking_threads(settings.limits.connections + 1);
    let runtime = runtime.build()?;
    runtime.block_on(serve(settings))
}

/// Serves the folder until a signal ends that.
async fn serve(settings: Settings) -> io::Result<()> {
    let listeners = settings.common.bind().await?;
    // what is read from here on, that user has to be allowed to read
    settings.common.identity.take()?;
    let limits = settings.limits;
    listening::compare_descriptors(limits.connections, OF_A_SESSION);
    let hangups = signal(SignalKind::hangup())?;
    let (newest, server) = watch::channel(Arc::new(Server::read(settings)?));
    tokio::spawn(read_again(hangups, newest));
    print(&listening::ports(&listeners)?)?;
    let session = |connected| session::serve(server.borrow().clone(), connected);
    listening::serve(listeners, limits, GRACE + CLOSING, session).await
}

/// Reads users and certificates again at each SIGHUP. Sessions that have begun keep theirs.
async fn read_again(mut hangups: Signal, newest: watch::Sender<Arc<Server>>) {
    while hangups.recv().await.is_some() {
        let before = newest.borrow().clone();
        if let Ok(server) = spawn_blocking(move || before.read_again()).await {
            newest.send_replace(Arc::new(server));
            tracing::info!("read again, at SIGHUP");
        }
    }
}

/// The error with what it is about.
fn about(what: &str, error: io::Error) -> io::Error {
    io::Error::new(error.kind(), format!("{what}: {error}"))
}
