//! The options that the programs have in common.
use crate::identity::Identity;
use crate::listening::{self, Listener, Place};
use crate::log::Format;
use crate::ports::{port_range, Passive};
use crate::tls::DataSession;
use clap::parser::ValueSource;
use clap::{value_parser, Arg, ArgAction, ArgMatches};
use std::io;
use std::net::{Ipv4Addr, SocketAddr};
use std::ops::RangeInclusive;
use std::path::PathBuf;
use tracing::level_filters::LevelFilter;

/// Those of RFC 6335, section 6.
const DYNAMIC_PORTS: RangeInclusive<u16> = 49152..=65535;

/// What these options say.
#[derive(Clone, Debug)]
pub struct Common {
    /// Where it listens.
    pub listen: Vec<Place>,
    /// What passive data connections have.
    pub passive: Passive,
    /// The PEM files of the certificates and of their key.
    pub tls: Option<(PathBuf, PathBuf)>,
    /// Which TLS sessions data connections may have.
    pub data_session: DataSession,
    /// Whether names, passwords and files are only taken and sent under TLS.
    pub require_tls: bool,
    /// Who it is, once it has its ports.
    pub identity: Identity,
    /// What is logged.
    pub log: LevelFilter,
    /// How it is written.
    pub log_format: Format,
}

impl Common {
    /// What a command line says.
    pub fn of(matches: &ArgMatches) -> Common {
        let word = |name| matches.get_one::<String>(name).cloned();
        let is_any = matches.get_flag("any-data-session");
        Common {
            listen: places(matches),
            passive: Passive {
                ports: matches.get_one("passive-ports").cloned().unwrap_or(DYNAMIC_PORTS),
                public_address: matches.get_one("public-address").copied(),
            },
            tls: file(matches, "certificate").zip(file(matches, "key")),
            data_session: if is_any { DataSession::Any } else { DataSession::Resumed },
            require_tls: matches.get_flag("require-tls"),
            identity: Identity {
                user: word("user"),
                group: word("group"),
                umask: matches.get_one("umask").copied(),
            },
            log: matches.get_one("log").copied().unwrap_or(LevelFilter::INFO),
            log_format: matches.get_one("log-format").copied().unwrap_or_default(),
        }
    }
}

impl Common {
    /// What listens: systemd's sockets, or else where the options say.
    ///
    /// # Errors
    ///
    /// Where it can't listen, or TLS is to begin at once and there is no certificate.
    pub async fn bind(&self) -> io::Result<Vec<Listener>> {
        let given = listening::given()?;
        if given.is_empty() {
            return listening::bind(&self.listen).await;
        }
        if self.tls.is_none() && given.iter().any(|it| it.is_implicit) {
            let text = "a socket of systemd is named implicit-tls: --certificate is missing";
            return Err(io::Error::new(io::ErrorKind::InvalidInput, text));
        }
        Ok(given)
    }
}

/// Where it listens. `--implicit-tls` alone takes the place of the default of `--listen`.
fn places(matches: &ArgMatches) -> Vec<Place> {
    let of = |name, is_implicit| {
        let addresses = matches.get_many::<SocketAddr>(name).into_iter().flatten();
        addresses.map(move |&address| Place { address, is_implicit })
    };
    let is_default = matches.value_source("listen") == Some(ValueSource::DefaultValue);
    let mut places: Vec<_> = of("implicit-tls", true).collect();
    if places.is_empty() || !is_default {
        places.splice(..0, of("listen", false));
    }
    places
}

/// An option with a value.
pub fn option(name: &'static str, value: &'static str, help: &'static str) -> Arg {
    Arg::new(name).long(name).value_name(value).help(help)
}

/// An option whose value is a path.
pub fn path(name: &'static str, value: &'static str, help: &'static str) -> Arg {
    option(name, value, help).value_parser(value_parser!(PathBuf))
}

/// An option without a value.
pub fn flag(name: &'static str, help: &'static str) -> Arg {
    Arg::new(name).long(name).action(ArgAction::SetTrue).help(help)
}

/// An option whose value is a number from 1 on.
pub fn count(name: &'static str, default: &'static str, help: &'static str) -> Arg {
    let from_one = value_parser!(u32).range(1..);
    option(name, "NUMBER", help).value_parser(from_one).default_value(default)
}

/// The number of an option.
pub fn number(matches: &ArgMatches, name: &str) -> u32 {
    matches.get_one(name).copied().unwrap_or_default()
}

/// The path of an option.
pub fn file(matches: &ArgMatches, name: &str) -> Option<PathBuf> {
    matches.get_one::<PathBuf>(name).cloned()
}

/// Where the programs listen.
pub fn listening() -> [Arg; 4] {
    [
        option("listen", "ADDRESS:PORT", "Where it listens; port 0 lets the system pick")
            .value_parser(value_parser!(SocketAddr))
            .action(ArgAction::Append)
            .default_value("127.0.0.1:2121"),
        option("implicit-tls", "ADDRESS:PORT", "Where TLS begins at once, as on port 990")
            .value_parser(value_parser!(SocketAddr))
            .action(ArgAction::Append)
            .requires("certificate"),
        option("passive-ports", "A-B", "The ports of passive data connections")
            .value_parser(port_range)
            .default_value("49152-65535"),
        option("public-address", "IPV4", "The address in the reply to PASV")
            .value_parser(value_parser!(Ipv4Addr)),
    ]
}

/// TLS toward clients.
pub fn encryption() -> [Arg; 4] {
    [
        path("certificate", "PEM", "The certificates for TLS").requires("key"),
        path("key", "PEM", "The private key of the first certificate").requires("certificate"),
        flag("require-tls", "No passwords and no files in clear text").requires("certificate"),
        flag(
            "any-data-session",
            "Takes data connections that don't resume the TLS session of their control connection",
        ),
    ]
}

/// Who the program is, and what it logs.
pub fn process() -> [Arg; 5] {
    [
        option("user", "NAME", "Who it is once it has its ports; only root becomes another user"),
        option("group", "NAME", "Its group, in place of the groups of --user").requires("user"),
        option("umask", "OCTAL", "What the modes of new files lack, such as 027")
            .value_parser(octal),
        option("log", "LEVEL", "error, warn, info, or debug, which shows each line")
            .value_parser(value_parser!(LevelFilter))
            .default_value("info"),
        option("log-format", "FORMAT", "text, or json: an object a line")
            .value_parser(value_parser!(Format))
            .default_value("text"),
    ]
}

/// A mask of modes.
fn octal(text: &str) -> Result<u32, &'static str> {
    let mask = u32::from_str_radix(text, 8).ok().filter(|mask| *mask <= 0o777);
    mask.ok_or("an octal number up to 777")
}
