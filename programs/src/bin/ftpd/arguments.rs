//! What the command line says.
use crate::config;
use crate::guesses;
use crate::upload::Cut;
use crate::users::ROUNDS;
use clap::{value_parser, Arg, ArgMatches, Command};
use std::env;
use std::io;
use std::path::PathBuf;
use std::time::Duration;
use unftp_control_programs::listening::Limits;
use unftp_control_programs::options::{self, count, file, flag, number, option, path, Common};

/// What signals do, for the help.
const SIGNALS: &str = "\
At SIGHUP the files of users, certificates and the key are read again, for sessions that begin
after that. A file at fault is logged, and what was read of it before stays. At SIGINT or SIGTERM
each session ends after its transfer, to which 10 seconds are left.";

/// What the program is to do.
pub enum Task {
    /// Print the hash of a password that is read from standard input.
    HashPassword {
        /// How often it is hashed.
        rounds: u32,
    },
    /// Serve a folder.
    Serve(Box<Settings>),
    /// Read all that serving a folder needs.
    Check(Box<Settings>),
}

/// How a folder is served.
pub struct Settings {
    /// The folder.
    pub folder: PathBuf,
    /// The options that the programs have in common.
    pub common: Common,
    /// The file of the users.
    pub users: Option<PathBuf>,
    /// Whether anybody may read.
    pub anonymous: bool,
    /// What happens with what came of an upload that is cut.
    pub cut_uploads: Cut,
    /// How many connections there may be.
    pub limits: Limits,
    /// How many passwords may be wrong.
    pub guesses: guesses::Limits,
    /// How long a client may send no line.
    pub idle: Duration,
    /// How long a data connection may take to open, and may then stand still; and how long a client
    /// may not read its replies.
    pub stall: Duration,
}

/// Reads the command line, and the file that it names. Where the command line is wrong or asks for
/// help, it prints that and ends the program.
///
/// # Errors
///
/// Where the file can't be read, or has what is no option.
pub fn task() -> io::Result<Task> {
    let matches = matches()?;
    if matches.get_flag("hash-password") {
        return Ok(Task::HashPassword { rounds: number(&matches, "rounds") });
    }
    let settings = Box::new(settings(&matches));
    Ok(if matches.get_flag("check") { Task::Check(settings) } else { Task::Serve(settings) })
}

/// What the command line says, and what the file says that it names.
fn matches() -> io::Result<ArgMatches> {
    let given = command().get_matches();
    let Some(file) = given.get_one::<PathBuf>("config") else { return Ok(given) };
    let mut words: Vec<_> = env::args_os().collect();
    words.splice(1..1, config::words(&command(), &given, file)?);
    let matches = command().get_matches_from(words);
    if matches.get_one::<PathBuf>("FOLDER").is_none() {
        let text = format!("{}: there is no folder, nor is a FOLDER given", file.display());
        return Err(io::Error::new(io::ErrorKind::InvalidInput, text));
    }
    Ok(matches)
}

fn settings(matches: &ArgMatches) -> Settings {
    let seconds = |name| Duration::from_secs(number(matches, name).into());
    Settings {
        folder: file(matches, "FOLDER").unwrap_or_default(),
        common: Common::of(matches),
        users: file(matches, "users"),
        anonymous: !matches.get_flag("no-anonymous"),
        cut_uploads: matches.get_one("cut-uploads").copied().unwrap_or(Cut::Kept),
        limits: Limits {
            connections: number(matches, "connections") as usize,
            per_address: number(matches, "per-address") as usize,
        },
        guesses: guesses::Limits {
            per_address: number(matches, "wrong-per-address"),
            per_name: number(matches, "wrong-per-name"),
        },
        idle: seconds("idle"),
        stall: seconds("stall"),
    }
}

fn command() -> Command {
    Command::new("ftpd")
        .version(env!("CARGO_PKG_VERSION"))
        .about(
            "Serves a folder over FTP. It prints its ports as one line, those of --listen first.",
        )
        .arg(
            Arg::new("FOLDER")
                .value_parser(value_parser!(PathBuf))
                .required_unless_present_any(["hash-password", "config"])
                .help("The folder that is served"),
        )
        .arg(path(
            "config",
            "FILE",
            "TOML with the names of the options; those given here override it",
        ))
        .arg(flag("check", "Reads the files of the options, and ends"))
        .args(options::listening())
        .args(users())
        .args(options::encryption())
        .arg(cut_uploads())
        .args(limits())
        .args(options::process())
        .after_help(SIGNALS)
}

fn users() -> [Arg; 4] {
    [
        path("users", "FILE", "Users, one a line: NAME:HASH[:read|add|upload|write[:FOLDER]]"),
        flag("no-anonymous", "Only users may read"),
        flag("hash-password", "Reads a password from standard input and prints its hash"),
        count("rounds", ROUNDS, "How often --hash-password hashes"),
    ]
}

fn cut_uploads() -> Arg {
    option("cut-uploads", "keep|remove", "What happens with what came of an upload that is cut")
        .value_parser(|text: &str| match text {
            "keep" => Ok(Cut::Kept),
            "remove" => Ok(Cut::Removed),
            _ => Err("keep or remove"),
        })
        .default_value("keep")
}

fn limits() -> [Arg; 6] {
    [
        count("connections", "200", "Connections of all clients"),
        count("per-address", "150", "Connections of one address"),
        count(
            "wrong-per-address",
            "20",
            "Wrong passwords of one address; one is forgiven in 30 seconds",
        ),
        count("wrong-per-name", "100", "The same of one name, from wherever they come"),
        count("idle", "300", "Seconds that a client may send no line"),
        count("stall", "60", "Seconds that a data connection may stand still"),
    ]
}
