//! Protection of the clients' connections by TLS (RFC 4217). The server knows nothing of it: its own
//! connections are protected or not, whatever those of the clients are.
use super::conversation::Conversation;
use super::rules::is_never_sent;
use crate::tls::OfConnection;
use std::sync::Arc;
use unftp_control::{
    AuthParam, Command, Event, ProtParam, ReceivedReply, Reply, ReplyCode as Code,
};

/// How far protection has come.
#[derive(Clone, Copy, Debug, Default)]
pub struct Protection {
    /// The control connection is under TLS.
    pub is_tls: bool,
    /// PBSZ came.
    pub has_size: bool,
    /// Data connections are under TLS.
    pub is_private: bool,
}

impl Conversation {
    /// Does what AUTH, PBSZ or PROT asks for, and returns the reply.
    pub(super) fn protect(&mut self, event: &Event<'_>) -> Reply {
        if self.tls.is_none() {
            return Reply::new(Code::COMMAND_NOT_IMPLEMENTED, "No TLS here");
        }
        let (code, text) = match event {
            Event::Command(Command::Auth { protocol }) => self.authenticate(*protocol),
            Event::Command(Command::Pbsz) if self.protection.is_tls => {
                self.protection.has_size = true;
                (Code::COMMAND_OKAY, "PBSZ=0")
            }
            Event::Command(Command::Prot { param: ProtParam::Clear })
                if self.protection.has_size && self.relay.data.require_tls =>
            {
                (Code::FTPS_REQUIRED, "Data connections are under TLS only")
            }
            Event::Command(Command::Prot { param }) if self.protection.has_size => match param {
                ProtParam::Clear | ProtParam::Private => {
                    self.set_private(*param == ProtParam::Private);
                    (Code::COMMAND_OKAY, "Protection level set")
                }
                _ => (Code::PROT_LEVEL_NOT_SUPPORTED, "The levels are C and P"),
            },
            _ => (Code::BAD_COMMAND_SEQUENCE, "AUTH TLS, PBSZ 0 and PROT come in this order"),
        };
        Reply::new(code, text)
    }

    /// Sets the level of the data connections, also of one that the client has yet to open.
    fn set_private(&mut self, is_private: bool) {
        let was_private = std::mem::replace(&mut self.protection.is_private, is_private);
        if let Some(transfer) = self.transfer.as_ref().filter(|_| was_private != is_private) {
            transfer.protect(self.data_tls());
        }
    }

    /// What turns the client's end of data connections to TLS, where they are to be under it.
    pub(super) fn data_tls(&self) -> Option<Arc<OfConnection>> {
        self.tls.clone().filter(|_| self.protection.is_private)
    }

    /// Notes whose connection it is, after a login: its data connections are tied to it by that.
    pub(super) fn belongs_to(&self, user: &[u8]) {
        if let Some(connection) = self.tls.as_ref().and_then(|tls| tls.connection.as_ref()) {
            connection.belongs_to(user);
        }
    }

    /// The reply to a name, a password or a transfer in clear text where TLS has to come first.
    pub(super) fn refusal_in_clear(&self, command: &Command<'_>) -> Option<Reply> {
        let is_clear = !self.protection.is_tls;
        match command {
            _ if !self.relay.data.require_tls || self.protection.is_private => None,
            Command::User { .. } | Command::Pass { .. } | Command::Acct { .. } if is_clear => {
                Some(Reply::new(Code::FTPS_REQUIRED, "AUTH TLS comes first"))
            }
            Command::Retr { .. }
            | Command::Stor { .. }
            | Command::Appe { .. }
            | Command::Stou
            | Command::List { .. }
            | Command::Nlst { .. }
            | Command::Mlsd { .. } => {
                let text = "Data connections are under TLS only: use PROT P";
                Some(Reply::new(Code::ADDRESS_FAMILY_NOT_SUPPORTED, text))
            }
            _ => None,
        }
    }

    /// Features without those whose lines the server is never sent, and with those of the relay.
    pub(super) fn features(&self, reply: &ReceivedReply<'_>) -> Reply {
        let is_of_server = |line: &String| {
            // some servers begin each line by the code
            let line = line.strip_prefix("211-").unwrap_or(line);
            let word = line.split_whitespace().next().unwrap_or_default();
            !is_never_sent(&word.to_ascii_uppercase())
        };
        let mut lines: Vec<String> =
            reply.lines().map(|line| String::from_utf8_lossy(line).into_owned()).collect();
        let last = if lines.len() > 1 { lines.pop() } else { None };
        lines.retain(is_of_server);
        if lines.is_empty() {
            lines.push("Features:".to_string());
        }
        if self.tls.is_some() {
            lines.extend([" AUTH TLS", " PBSZ", " PROT"].map(String::from));
        }
        lines.extend(last.or_else(|| (lines.len() > 1).then(|| "End".to_string())));
        Reply::with_lines(Code::SYSTEM_STATUS, lines)
    }

    /// AUTH comes before USER: what a login or any later command has set at the server came in
    /// clear text, and so may be a stranger's.
    fn authenticate(&mut self, protocol: AuthParam) -> (Code, &'static str) {
        match protocol {
            _ if self.protection.is_tls => (Code::BAD_COMMAND_SEQUENCE, "Under TLS already"),
            _ if self.has_user => (Code::BAD_COMMAND_SEQUENCE, "AUTH comes before USER"),
            AuthParam::Tls => {
                self.begins_tls = true;
                (Code::AUTH_OKAY_NO_DATA_NEEDED, "Begin TLS")
            }
            _ => (Code::COMMAND_NOT_IMPLEMENTED_FOR_PARAMETER, "AUTH TLS only"),
        }
    }
}
