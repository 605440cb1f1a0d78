//! The log's lines for what users do: one for each login, each transfer and each change. They have
//! names and paths as values, in which the log escapes what would end or change its line. They have
//! no password.
use crate::folder::FilePath;
use crate::line::{first_word, list_path, parameter, subcommand_parameter};
use crate::session::Session;
use std::borrow::Cow;
use std::time::Instant;
use tracing::field;
use unftp_control::{Command, Event, OwnedLine, Reply};

/// What a line asks for that has a line in the log.
pub struct Action {
    is_transfer: bool,
    verb: &'static str,
    path: FilePath,
    /// What had the path before, where it is a new name.
    from: Option<FilePath>,
    begun: Instant,
}

/// What came of an action.
pub struct Outcome {
    /// `ok`, or the reply.
    result: String,
    /// What the system says of it.
    error: Option<String>,
}

impl Outcome {
    /// That of a reply.
    pub fn of(reply: &Reply, error: Option<String>) -> Outcome {
        let code = reply.code().to_string();
        let text = text(reply.lines().next().unwrap_or_default());
        let result =
            if code.starts_with('2') { "ok".to_string() } else { format!("{code} {text}") };
        Outcome { result, error }
    }

    /// That of a transfer whose client is away, so that it gets no reply.
    pub fn gone() -> Outcome {
        Outcome { result: "the client is gone".to_string(), error: None }
    }
}

impl Action {
    /// That of a line, where it is one of somebody who has logged in.
    pub fn of(line: &OwnedLine, session: &Session) -> Option<Action> {
        session.login.name()?;
        let Event::Command(command) = &line.event else { return None };
        let transfer = transferred(command);
        let verb = transfer.or_else(|| changed(command))?;
        Some(Action {
            is_transfer: transfer.is_some(),
            verb,
            path: session.directory.join(&named(verb, line).ok()?),
            from: session.renamed.clone().filter(|_| verb == "RNTO"),
            begun: Instant::now(),
        })
    }

    /// The same for another path, which its line doesn't have.
    pub fn at(self, path: Option<&FilePath>) -> Action {
        Action { path: path.cloned().unwrap_or(self.path), ..self }
    }

    /// Logs it, with how many bytes were sent or received.
    pub fn log(&self, session: &Session, bytes: u64, outcome: &Outcome) {
        let user = text(session.login.name().unwrap_or_default());
        let path = self.path.bytes();
        let (verb, path, user) = (field::display(self.verb), &*text(&path), &*user);
        let Outcome { result, error } = outcome;
        if self.is_transfer {
            // whole milliseconds
            let seconds = (self.begun.elapsed().as_secs_f64() * 1000.0).round() / 1000.0;
            let error = error.as_deref();
            tracing::info!(verb, path, bytes, seconds, result, error, user, "transfer");
        } else {
            let from = self.from.as_ref().map(FilePath::bytes);
            let from = from.as_deref().map(text);
            tracing::info!(verb, path, from = from.as_deref(), result, user, "change");
        }
    }
}

/// The verb of a transfer.
fn transferred(command: &Command<'_>) -> Option<&'static str> {
    Some(match command {
        Command::Retr { .. } => "RETR",
        Command::Stor { .. } => "STOR",
        Command::Appe { .. } => "APPE",
        Command::Stou => "STOU",
        Command::List { .. } => "LIST",
        Command::Nlst { .. } => "NLST",
        Command::Mlsd { .. } => "MLSD",
        _ => return None,
    })
}

/// The verb of a change.
fn changed(command: &Command<'_>) -> Option<&'static str> {
    Some(match command {
        Command::Dele { .. } => "DELE",
        Command::Rmd { .. } => "RMD",
        Command::Mkd { .. } => "MKD",
        Command::Rnto { .. } => "RNTO",
        Command::Site { command, .. } if command == "CHMOD" => "CHMOD",
        Command::Other { command_name, .. } if command_name == "MFMT" => "MFMT",
        Command::Other { command_name, .. } if command_name == "XRMD" => "RMD",
        _ => return None,
    })
}

/// What a line of this verb names.
fn named(verb: &str, line: &OwnedLine) -> Result<Vec<u8>, Reply> {
    match verb {
        "LIST" | "NLST" => list_path(line),
        "CHMOD" => Ok(first_word(&subcommand_parameter(line)?).1.to_vec()),
        "MFMT" => Ok(first_word(&parameter(line)?).1.to_vec()),
        _ => parameter(line),
    }
}

/// Logs a login.
pub fn login(name: &[u8]) {
    tracing::info!(user = &*text(name), "login");
}

/// Logs one that failed.
pub fn failed_login(name: &[u8]) {
    tracing::warn!(user = &*text(name), "login failed");
}

/// Logs a control connection that doesn't turn to TLS.
pub fn failed_handshake(error: &std::io::Error) {
    tracing::warn!(error = &*error.to_string(), "TLS handshake failed");
}

/// Bytes as a value, with U+FFFD for what is not UTF-8.
fn text(bytes: &[u8]) -> Cow<'_, str> {
    String::from_utf8_lossy(bytes)
}
