//! What the command lines of `ftp-proxy` and `ftp-record` have in common.
use super::exchange::Exchange;
use super::rules::Allowed;
use super::{Data, Limits, Relay};
use crate::listening::{self, serve};
use crate::log;
use crate::options::{self, count, file, flag, number, option, path, Common};
use crate::server_tls::ServerTls;
use crate::tls::TlsAcceptors;
use clap::builder::NonEmptyStringValueParser;
use clap::{value_parser, Arg, ArgMatches, Command};
use std::io::{self, Write};
use std::path::PathBuf;
use std::sync::Arc;
use std::time::Duration;
use tokio::signal::unix::{signal, Signal, SignalKind};
use tokio::sync::{mpsc, watch};

/// How long the sessions have to end where the program ends.
const ENDING: Duration = Duration::from_secs(15);

/// How many descriptors a session needs: for both control connections, and for a listener and both ends
/// of a data connection.
const OF_A_SESSION: usize = 5;
/// What signals do, for the help.
const SIGNALS: &str = "\
At SIGHUP the certificates and the key are read again, for sessions that begin after that. At SIGINT
or SIGTERM each session ends once its replies have come, after 5 seconds at most.";
/// Where Debian has the authorities that it knows.
const AUTHORITIES: &str = "/etc/ssl/certs/ca-certificates.crt";

/// The arguments of a relay, to which a program adds its own.
pub fn command(name: &'static str, about: &'static str) -> Command {
    Command::new(name)
        .version(env!("CARGO_PKG_VERSION"))
        .about(about)
        .arg(
            Arg::new("SERVER")
                .help("The server, HOST:PORT")
                .value_parser(NonEmptyStringValueParser::new())
                .required(true),
        )
        .args(options::listening())
        .args(options::encryption())
        .args(toward_server())
        .args(limits())
        .args(options::process())
        .after_help(SIGNALS)
}

/// TLS toward the server.
fn toward_server() -> [Arg; 3] {
    [
        flag("server-tls", "Speaks TLS to the server, whose certificate is checked"),
        path(
            "server-ca",
            "PEM",
            "Authorities, or the server's own certificate, in place of Debian's",
        )
        .requires("server-tls"),
        option("server-name", "NAME", "The name in the server's certificate, in place of HOST")
            .requires("server-tls"),
    ]
}

fn limits() -> [Arg; 5] {
    [
        count("connections", "500", "Connections of all clients"),
        count("per-address", "200", "Connections of one address"),
        count("idle", "900", "Seconds without a line or a reply"),
        count("stall", "300", "Seconds that a data connection may stand still"),
        option("line", "NUMBER", "Bytes of a line, its end among them")
            .value_parser(value_parser!(u32).range(64..=65536))
            .default_value("2048"),
    ]
}

/// Relays clients until a signal ends that, and logs to standard error. It prints the ports once it
/// listens.
///
/// # Errors
///
/// Where it can't listen, can't be the user that it is to be, or a certificate can't be read.
pub async fn run(
    matches: &ArgMatches,
    allowed: Allowed,
    exchanges: Option<mpsc::Sender<Exchange>>,
) -> io::Result<()> {
    let common = Common::of(matches);
    let _end = log::start(common.log, common.log_format)?;
    let listeners = common.bind().await?;
    // what is read from here on, that user has to be allowed to read
    common.identity.take()?;
    let files = Files::of(matches, &common);
    let relay = relay(matches, &common, allowed, files.read()?, exchanges);
    let limits = listening::Limits {
        connections: number(matches, "connections") as usize,
        per_address: number(matches, "per-address") as usize,
    };
    listening::compare_descriptors(limits.connections, OF_A_SESSION);
    let (newest, relay) = watch::channel(Arc::new(relay));
    let reading = tokio::spawn(read_again(signal(SignalKind::hangup())?, files, newest));
    writeln!(io::stdout(), "{}", listening::ports(&listeners)?)?;
    let session = |connected| relay.borrow().clone().session(connected);
    let served = serve(listeners, limits, ENDING, session).await;
    // with it goes the last sender of exchanges
    reading.abort();
    let _ = reading.await;
    served
}

/// The relay of a command line.
fn relay(
    matches: &ArgMatches,
    common: &Common,
    allowed: Allowed,
    (tls, server_tls): Protections,
    exchanges: Option<mpsc::Sender<Exchange>>,
) -> Relay {
    let seconds = |name| Duration::from_secs(number(matches, name).into());
    Relay {
        server: server(matches),
        allowed,
        tls,
        server_tls,
        data: Data { passive: common.passive.clone(), require_tls: common.require_tls },
        limits: Limits {
            line: number(matches, "line") as usize,
            idle: seconds("idle"),
            data: seconds("stall"),
        },
        exchanges,
    }
}

fn server(matches: &ArgMatches) -> String {
    matches.get_one::<String>("SERVER").cloned().unwrap_or_default()
}

/// What protects the clients' connections, and the server's.
type Protections = (Option<TlsAcceptors>, Option<ServerTls>);

/// The files that are read again at SIGHUP.
struct Files {
    common: Common,
    /// The authorities, and the name in the server's certificate.
    server: Option<(PathBuf, String)>,
}

impl Files {
    /// Those of a command line.
    fn of(matches: &ArgMatches, common: &Common) -> Files {
        let name = matches.get_one::<String>("server-name").cloned();
        let name = name.unwrap_or_else(|| host(&server(matches)).to_string());
        let authorities = file(matches, "server-ca").unwrap_or_else(|| AUTHORITIES.into());
        let server = matches.get_flag("server-tls").then_some((authorities, name));
        Files { common: common.clone(), server }
    }

    fn read(&self) -> io::Result<Protections> {
        let tls = self.common.tls.as_ref().map(|(certificates, key)| {
            TlsAcceptors::read(certificates, key, self.common.data_session)
        });
        let server = self.server.as_ref().map(|(file, name)| ServerTls::read(file, name));
        Ok((tls.transpose()?, server.transpose()?))
    }
}

/// The host of HOST:PORT, without the brackets of an address of IPv6.
fn host(server: &str) -> &str {
    let host = server.rsplit_once(':').map_or(server, |(host, _)| host);
    host.strip_prefix('[').and_then(|it| it.strip_suffix(']')).unwrap_or(host)
}

/// Reads the certificates again at each SIGHUP, for sessions that begin after that. Where a file is at
/// fault, which is logged, what was read before stays.
async fn read_again(mut hangups: Signal, files: Files, newest: watch::Sender<Arc<Relay>>) {
    while hangups.recv().await.is_some() {
        let before = newest.borrow().clone();
        match files.read() {
            Ok((tls, server_tls)) => {
                newest.send_replace(Arc::new(Relay { tls, server_tls, ..(*before).clone() }));
                tracing::info!("read again, at SIGHUP");
            }
            Err(error) => tracing::error!("{error}; what was read before stays"),
        }
    }
}

#[cfg(test)]
mod tests {
    use super::*;

    #[test]
    fn hosts() {
        assert_eq!(host("ftp.example.org:21"), "ftp.example.org");
        assert_eq!(host("192.0.2.1:21"), "192.0.2.1");
        assert_eq!(host("[2001:db8::1]:21"), "2001:db8::1");
    }
}
