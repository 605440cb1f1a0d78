//! The answers to commands.
use crate::folder::FilePath;
use crate::line::{list_path, parameter, with_nul};
use crate::listing::{Fact, Form};
use crate::record;
use crate::representation::Representation;
use crate::server::Checked;
use crate::session::Session;
use crate::transfer::Work;
use std::borrow::Cow;
use std::io;
use std::time::Duration;
use unftp_control::{
    quoted_path, AuthParam, Command, Event, LoginStep, ModeParam, Opt, OwnedLine, ProtParam,
    Refusal, Reply, ReplyCode as Code, StruParam,
};

/// What a session does for a line.
pub enum Answer {
    /// Sends a reply.
    Reply(Reply),
    /// Sends a reply, and transfers.
    Transfer(Reply, Work),
    /// Sends a reply to a wrong password, after a time.
    WrongPassword(Reply, Duration),
    /// Ends, since too many passwords were wrong.
    UnseenPassword,
    /// Sends a reply, and turns to TLS.
    TurnToTls(Reply),
    /// Sends a reply, and ends.
    Quit(Reply),
}

/// An answer, or the reply to what can't be done.
pub type Answered = Result<Answer, Reply>;

/// The answer of a reply.
pub fn reply(code: Code, text: impl Into<Cow<'static, str>>) -> Answered {
    Ok(Answer::Reply(Reply::new(code, text)))
}

/// The answer that names a directory, for PWD and MKD (RFC 959, appendix II).
pub fn directory(path: &FilePath) -> Answered {
    match quoted_path(&with_nul(&path.bytes())) {
        Ok(quoted) => Ok(Answer::Reply(Reply::of_bytes(Code::DIR_CREATED, quoted))),
        Err(error) => Err(Reply::new(Code::LOCAL_ERROR, error.to_string())),
    }
}

/// The reply to what can't be done.
pub fn refuse(code: Code, text: &'static str) -> Answered {
    Err(Reply::new(code, text))
}

/// The answer to PASV or EPSV.
fn listening(answered: io::Result<Reply>) -> Answered {
    answered.map(Answer::Reply).map_err(|error| {
        tracing::warn!(%error, "no data connection can be listened for");
        Reply::new(Code::CANT_OPEN_DATA_CONNECTION, "No port is free")
    })
}

/// The verbs that are answered, for HELP.
const VERBS: [&str; 5] = [
    "ABOR ACCT ALLO APPE AUTH CDUP CWD DELE EPRT EPSV",
    "FEAT HELP LIST MDTM MFMT MKD MLSD MLST MODE",
    "NLST NOOP OPTS PASS PASV PBSZ PORT PROT PWD QUIT",
    "REIN REST RETR RMD RNFR RNTO SITE SIZE STAT STOR",
    "STOU STRU SYST TYPE USER",
];

impl Session {
    /// What is done for a line.
    pub async fn answer(&mut self, line: &OwnedLine) -> Answer {
        // RNTO follows at once (RFC 959, section 4.1.3)
        let renamed = self.renamed.take();
        let answered = match self.admit(line).await {
            Some(answer) => return answer,
            None => match &line.event {
                Event::Command(Command::Rnto { .. }) => self.rename_to(renamed, line).await,
                Event::Command(command) => self.command(command, line).await,
                Event::Refused(refusal) => self.refused(*refusal, line),
            },
        };
        answered.unwrap_or_else(Answer::Reply)
    }

    /// The answer to a line of the login, or to one that needs a login or TLS first.
    async fn admit(&mut self, line: &OwnedLine) -> Option<Answer> {
        if let Event::Command(Command::User { username }) = &line.event {
            if username.is_empty() {
                let reply = Reply::new(Code::PARAMETER_SYNTAX_ERROR, "USER takes a name");
                return Some(Answer::Reply(reply));
            }
            if self.server.settings.common.require_tls && !self.is_tls {
                return Some(Answer::Reply(Reply::new(
                    Code::FTPS_REQUIRED,
                    "AUTH TLS comes first",
                )));
            }
        }
        if let Event::Command(Command::Auth { protocol }) = &line.event {
            // one that is refused leaves the login (RFC 2228, section 3)
            if let Err(refusal) = self.auth(*protocol) {
                return Some(Answer::Reply(refusal));
            }
        }
        let (name, checked) = match self.login.event(&line.event) {
            LoginStep::PassOn => return None,
            LoginStep::Answer(reply) => return Some(Answer::Reply(reply)),
            LoginStep::AskAccounts { name, password } => {
                let client = self.data_port.client();
                let checked = self.server.check(name, password.as_bytes(), client);
                (name.to_vec(), checked.await)
            }
        };
        let reply = self.login.answer(matches!(checked, Checked::Right(_)));
        Some(self.logged_in(&name, checked, reply))
    }

    /// The answer to a password.
    fn logged_in(&mut self, name: &[u8], checked: Checked, reply: Reply) -> Answer {
        match checked {
            Checked::Right(account) => {
                record::login(name);
                self.begin(account);
                Answer::Reply(reply)
            }
            Checked::Wrong(delay) => {
                record::failed_login(name);
                Answer::WrongPassword(reply, delay)
            }
            Checked::Unseen => {
                record::failed_login(name);
                Answer::UnseenPassword
            }
        }
    }

    /// The answer to a command of somebody who may give it.
    async fn command(&mut self, command: &Command<'_>, line: &OwnedLine) -> Answered {
        match command {
            Command::Noop => reply(Code::COMMAND_OKAY, "OK"),
            Command::Quit => Ok(Answer::Quit(Reply::new(Code::CLOSING_CONTROL_CONNECTION, "Bye"))),
            Command::Syst => reply(Code::SYSTEM_TYPE, "UNIX Type: L8"),
            Command::Feat => Ok(Answer::Reply(self.features())),
            Command::Help => Ok(Answer::Reply(help())),
            Command::Stat { path: None } => Ok(Answer::Reply(self.status())),
            Command::Stat { path: Some(path) } => self.status_of(path).await,
            Command::Acct { .. } => {
                reply(Code::COMMAND_OKAY_NOT_IMPLEMENTED, "No account is needed")
            }
            Command::Allo => reply(Code::COMMAND_OKAY_NOT_IMPLEMENTED, "No room need be reserved"),
            Command::Opts { option: Opt::Utf8 { on: true } } => reply(Code::COMMAND_OKAY, "OK"),
            Command::Opts { .. } => {
                let text = "File names are sent as they are, in UTF-8";
                refuse(Code::COMMAND_NOT_IMPLEMENTED_FOR_PARAMETER, text)
            }
            Command::Abor => self.abort(),
            Command::Auth { protocol } => self.auth(*protocol),
            Command::Pbsz => self.pbsz(),
            Command::Prot { param } => self.prot(*param),
            Command::Ccc => refuse(Code::FTPS_REQUIRED, "The control connection stays under TLS"),
            Command::Type => self.set_type(&parameter(line)?),
            Command::Mode { mode: ModeParam::Stream } => reply(Code::COMMAND_OKAY, "Mode S"),
            Command::Stru { structure: StruParam::File } => reply(Code::COMMAND_OKAY, "File"),
            Command::Mode { .. } | Command::Stru { .. } => {
                refuse(Code::COMMAND_NOT_IMPLEMENTED_FOR_PARAMETER, "Only MODE S and STRU F")
            }
            Command::Pasv => listening(self.data_port.passive()),
            Command::Epsv => listening(self.data_port.extended_passive(&parameter(line)?)),
            Command::Port { addr } => Ok(Answer::Reply(self.data_port.port(addr))),
            Command::Rest { offset } => self.restart(*offset),
            Command::Pwd => directory(&self.directory),
            Command::Cdup => self.change_directory(b"..").await,
            command => self.file_command(command, line).await,
        }
    }

    /// The answer to a command that names a file or a directory.
    async fn file_command(&mut self, command: &Command<'_>, line: &OwnedLine) -> Answered {
        match command {
            Command::Cwd { .. } => self.change_directory(&parameter(line)?).await,
            Command::Retr { .. } => self.retrieve(&parameter(line)?).await,
            Command::Stor { .. } => self.store(&parameter(line)?).await,
            Command::Appe { .. } => self.append(&parameter(line)?).await,
            Command::Stou => self.store_unique().await,
            Command::List { .. } => self.list(&list_path(line)?, Form::Long).await,
            Command::Nlst { .. } => self.list(&list_path(line)?, Form::Name).await,
            Command::Mlsd { .. } => {
                self.list(&parameter(line)?, Form::Facts(self.facts.clone())).await
            }
            Command::Mlst { .. } => self.show_facts(&parameter(line)?).await,
            Command::Size { .. } => self.size(&parameter(line)?).await,
            Command::Mdtm { .. } => self.modified(&parameter(line)?).await,
            Command::Dele { .. } => self.delete(&parameter(line)?).await,
            Command::Rmd { .. } => self.remove_directory(&parameter(line)?).await,
            Command::Mkd { .. } => self.make_directory(&parameter(line)?).await,
            Command::Rnfr { .. } => self.rename_from(&parameter(line)?).await,
            Command::Site { command, .. } if command == "CHMOD" => self.set_mode(line).await,
            Command::Site { command, .. } if command == "HELP" => {
                reply(Code::HELP_MESSAGE, "SITE CHMOD MODE PATH, SITE HELP")
            }
            Command::Site { .. } | Command::Md5 { .. } => {
                refuse(Code::COMMAND_NOT_IMPLEMENTED_FOR_PARAMETER, "Only SITE CHMOD")
            }
            Command::Other { command_name, arguments } => {
                self.other_command(command_name, arguments, line).await
            }
            _ => refuse(Code::COMMAND_NOT_IMPLEMENTED, "Not implemented"),
        }
    }

    /// The answer to a verb of which the layer has no command.
    async fn other_command(&mut self, verb: &str, words: &str, line: &OwnedLine) -> Answered {
        match verb {
            "EPRT" => Ok(Answer::Reply(self.data_port.extended_port(words))),
            "MFMT" => self.set_modified(line).await,
            "REIN" if words.is_empty() => self.reinitialize(),
            "XCUP" => self.change_directory(b"..").await,
            "XRMD" if !words.is_empty() => self.remove_directory(&parameter(line)?).await,
            _ => refuse(Code::COMMAND_SYNTAX_ERROR, "Unknown command"),
        }
    }

    /// The answer to a line that is no command. The commands of the layer don't have OPTS MLST.
    fn refused(&mut self, refusal: Refusal, line: &OwnedLine) -> Answered {
        let words = String::from_utf8_lossy(&line.bytes).trim_end().to_ascii_uppercase();
        match words.strip_prefix("OPTS MLST") {
            Some(facts) if facts.is_empty() || facts.starts_with(' ') => self.set_facts(facts),
            _ => Err(refusal.reply()),
        }
    }

    /// OPTS MLST: those facts that are known are shown (RFC 3659, section 7.9).
    fn set_facts(&mut self, named: &str) -> Answered {
        if self.login.name().is_none() {
            return refuse(Code::NOT_LOGGED_IN, "Log in with USER and PASS");
        }
        let has =
            |fact: &Fact| named.trim().split(';').any(|it| it.eq_ignore_ascii_case(fact.name()));
        self.facts = Fact::ALL.into_iter().filter(has).collect();
        let shown: String = self.facts.iter().map(|fact| format!("{};", fact.name())).collect();
        reply(Code::COMMAND_OKAY, format!("MLST OPTS {shown}"))
    }

    fn features(&self) -> Reply {
        let is_shown = |fact| if self.facts.contains(&fact) { "*" } else { "" };
        let facts: String =
            Fact::ALL.map(|fact| format!("{}{};", fact.name(), is_shown(fact))).concat();
        let facts = format!("MLST {facts}");
        let mut features = vec!["EPRT", "EPSV", "MDTM", "MFMT", &facts, "REST STREAM", "SIZE"];
        features.extend(["TVFS", "UTF8"]);
        if self.server.tls.is_some() {
            features.extend(["AUTH TLS", "PBSZ", "PROT"]);
        }
        let lines = features.iter().map(|feature| format!(" {feature}"));
        let lines = ["Features:".to_string()].into_iter().chain(lines).chain(["End".to_string()]);
        Reply::with_lines(Code::SYSTEM_STATUS, lines)
    }

    fn status(&self) -> Reply {
        let name = self.login.name().unwrap_or_default().escape_ascii();
        let protection = match (self.is_tls, self.is_private) {
            (true, true) => "TLS",
            (true, false) => "TLS, and data connections in clear text",
            (false, _) => "clear text",
        };
        let lines = [
            "Status:".to_string(),
            format!(" Logged in as {name}"),
            format!(" {:?}, stream, file", self.representation),
            format!(" Over {protection}"),
            "End".to_string(),
        ];
        Reply::with_lines(Code::SYSTEM_STATUS, lines)
    }

    /// ABOR after a transfer, or without one.
    fn abort(&mut self) -> Answered {
        self.data_port.close();
        reply(Code::CLOSING_DATA_CONNECTION, "No transfer is under way")
    }

    fn auth(&self, protocol: AuthParam) -> Answered {
        match protocol {
            _ if self.server.tls.is_none() => {
                refuse(Code::COMMAND_NOT_IMPLEMENTED, "There is no certificate")
            }
            _ if self.is_tls => refuse(Code::BAD_COMMAND_SEQUENCE, "Under TLS already"),
            AuthParam::Tls => {
                Ok(Answer::TurnToTls(Reply::new(Code::AUTH_OKAY_NO_DATA_NEEDED, "Turn to TLS")))
            }
            _ => refuse(Code::COMMAND_NOT_IMPLEMENTED_FOR_PARAMETER, "Use AUTH TLS"),
        }
    }

    fn pbsz(&mut self) -> Answered {
        if !self.is_tls {
            return refuse(Code::BAD_COMMAND_SEQUENCE, "AUTH TLS comes first");
        }
        self.has_pbsz = true;
        reply(Code::COMMAND_OKAY, "PBSZ=0")
    }

    fn prot(&mut self, level: ProtParam) -> Answered {
        if !self.has_pbsz {
            return refuse(Code::BAD_COMMAND_SEQUENCE, "PBSZ comes first");
        }
        match level {
            ProtParam::Private => self.is_private = true,
            ProtParam::Clear if self.server.settings.common.require_tls => {
                return refuse(Code::FTPS_REQUIRED, "Data connections are under TLS only");
            }
            ProtParam::Clear => self.is_private = false,
            ProtParam::Safe | ProtParam::Confidential => {
                return refuse(Code::PROT_LEVEL_NOT_SUPPORTED, "Only PROT P and PROT C");
            }
        }
        reply(Code::COMMAND_OKAY, "OK")
    }

    fn set_type(&mut self, parameter: &[u8]) -> Answered {
        self.representation = match &*parameter.to_ascii_uppercase() {
            b"A" | b"A N" => Representation::Ascii,
            b"I" | b"L 8" => Representation::Image,
            b"A T" | b"A C" | b"E" | b"E N" | b"E T" | b"E C" => {
                let text = "Only TYPE A N, TYPE I and TYPE L 8";
                return refuse(Code::COMMAND_NOT_IMPLEMENTED_FOR_PARAMETER, text);
            }
            _ => return refuse(Code::PARAMETER_SYNTAX_ERROR, "No such type"),
        };
        reply(Code::COMMAND_OKAY, "OK")
    }
}

fn help() -> Reply {
    let lines = VERBS.map(|verbs| format!(" {verbs}"));
    let lines = ["Commands:".to_string()].into_iter().chain(lines).chain(["End".to_string()]);
    Reply::with_lines(Code::HELP_MESSAGE, lines)
}
