//! What is done with each line of a client.
use super::conversation::{Addresses, Conversation, Purpose, Verdict};
use super::data::{Direction, Route, Transfer};
use super::rules::is_option;
use crate::ports::data_port;
use std::io;
use std::net::SocketAddr;
use unftp_control::{
    extended, forward, host_port, is_clear, parameter, Command, DataPort, Error, Event, ModeParam,
    OwnedLine, Reply, ReplyCode as Code,
};

impl Conversation {
    /// What is done with a line.
    pub(super) fn decide(&self, line: &OwnedLine) -> Verdict {
        let sent = sent_for(line);
        let is_clear = sent.as_ref().map_or(true, |(_, is_clear)| *is_clear);
        if let Some(reply) = self.relay.allowed.refusal(line, is_clear) {
            return Verdict::Answer(reply);
        }
        match sent {
            Ok((sent, _)) if sent.len() <= self.relay.limits.line => {
                self.decide_sent(&line.event, sent)
            }
            Ok(_) => answer(Code::COMMAND_SYNTAX_ERROR, "line too long"),
            Err(Error::OutOfMemory) => answer(Code::LOCAL_ERROR, "out of memory"),
            Err(_) => answer(Code::COMMAND_SYNTAX_ERROR, "not understood"),
        }
    }

    /// What is done with a line for which the server would be sent this one.
    fn decide_sent(&self, event: &Event<'_>, sent: Vec<u8>) -> Verdict {
        let Event::Command(command) = event else {
            return Verdict::Send(sent, Purpose::PassOn);
        };
        if let Some(reply) = self.refusal_in_clear(command) {
            return Verdict::Answer(reply);
        }
        let purpose = match command {
            Command::User { username } => Purpose::Login(username.to_vec()),
            Command::Pass { .. } | Command::Acct { .. } => Purpose::Login(self.user.clone()),
            Command::Auth { .. } | Command::Pbsz | Command::Prot { .. } => return Verdict::Protect,
            Command::Pasv => return self.passive(),
            Command::Epsv => return self.extended_passive(sent),
            Command::Port { addr } => return self.active(false, |client| client.port(addr)),
            Command::Other { command_name, arguments } if command_name == "EPRT" => {
                return self.active(true, |client| client.extended_port(arguments));
            }
            // it would end TLS (RFC 4217), and the next login would be in clear text
            Command::Other { command_name, .. }
                if command_name == "REIN"
                    && (self.protection.is_tls || self.to_server_tls.is_some()) =>
            {
                return answer(Code::COMMAND_NOT_IMPLEMENTED, "No REIN under TLS");
            }
            Command::Feat => Purpose::Features,
            // other modes don't end a file by the end of its data connection
            Command::Mode { mode } if *mode != ModeParam::Stream => {
                return answer(Code::COMMAND_NOT_IMPLEMENTED_FOR_PARAMETER, "MODE S only");
            }
            Command::Retr { .. } | Command::List { .. } | Command::Nlst { .. } => {
                Purpose::Transfer { is_download: true }
            }
            Command::Mlsd { .. } => Purpose::Transfer { is_download: true },
            Command::Stor { .. } | Command::Appe { .. } | Command::Stou => {
                Purpose::Transfer { is_download: false }
            }
            _ => Purpose::PassOn,
        };
        Verdict::Send(sent, purpose)
    }

    /// PASV. A server at an address of IPv6 has no six numbers, and is asked by EPSV.
    fn passive(&self) -> Verdict {
        if self.addresses.to_client.is_ipv6() {
            return answer(Code::CANT_OPEN_DATA_CONNECTION, "PASV is for IPv4; use EPSV");
        }
        let sent = if self.addresses.server.is_ipv4() { "PASV\r\n" } else { "EPSV\r\n" };
        Verdict::Send(sent.into(), Purpose::Passive { is_extended: false })
    }

    /// EPSV. Its parameter is the protocol of the client's end, and the server's may be another.
    fn extended_passive(&self, sent: Vec<u8>) -> Verdict {
        let own = if self.addresses.to_client.is_ipv4() { b"1" } else { b"2" };
        match parameter(&sent) {
            Ok(all) if all.eq_ignore_ascii_case(b"ALL") => Verdict::Send(sent, Purpose::PassOn),
            Ok(protocol) if protocol.is_empty() || protocol == own => {
                Verdict::Send(b"EPSV\r\n".to_vec(), Purpose::Passive { is_extended: true })
            }
            Err(Error::OutOfMemory) => answer(Code::LOCAL_ERROR, "out of memory"),
            _ => self.other_protocol(),
        }
    }

    fn other_protocol(&self) -> Verdict {
        let own = if self.addresses.to_client.is_ipv4() { 1 } else { 2 };
        let text = format!("Use ({own})");
        Verdict::Answer(Reply::new(Code::NETWORK_PROTOCOL_NOT_SUPPORTED, text))
    }

    /// The reply to PASV or EPSV, where the server listens on this port.
    pub(super) fn listen_for_client(&mut self, port: u16, is_extended: bool) -> Option<Reply> {
        let (mut client, mut server) = self.data_ports();
        let reply =
            if is_extended { client.extended_passive(b"") } else { client.passive() }.ok()?;
        if !client.is_prepared() {
            return None;
        }
        server.connect_to(port);
        let route = self.route(Direction::Passive, client, server);
        self.transfer = Some(Transfer::start(route, self.data_tls()));
        Some(reply)
    }

    /// The relay's data ports toward the client and toward the server.
    fn data_ports(&self) -> (DataPort, DataPort) {
        let Addresses { client, to_client, server, to_server } = self.addresses;
        (self.relay.data.passive.data_port(client, to_client), data_port(server, to_server))
    }

    fn route(&self, direction: Direction, client: DataPort, server: DataPort) -> Route {
        let server_tls = self.to_server_tls.clone();
        Route { direction, client, server, server_tls, patience: self.relay.limits.data }
    }

    /// PORT and EPRT: the server is sent an address of the relay. Only the client's own address is
    /// taken, so that no data goes to another machine (RFC 2577, section 3).
    fn active(&self, is_extended: bool, take: impl Fn(&mut DataPort) -> Reply) -> Verdict {
        let (mut client, server) = self.data_ports();
        let reply = take(&mut client);
        if reply.code() != Code::COMMAND_OKAY {
            return Verdict::Answer(reply);
        }
        self.listen_for_server(client, server, is_extended)
            .unwrap_or_else(|_| answer(Code::CANT_OPEN_DATA_CONNECTION, "No data connection"))
    }

    /// Sends the server an address of the relay.
    fn listen_for_server(
        &self,
        client: DataPort,
        mut server: DataPort,
        is_extended: bool,
    ) -> io::Result<Verdict> {
        let (verb, address) = match server.listen()? {
            SocketAddr::V4(own) if !is_extended => ("PORT", host_port(own)),
            own => ("EPRT", extended(own)),
        };
        let line = format!("{verb} {}\r\n", address.map_err(io::Error::other)?);
        let route = self.route(Direction::Active, client, server);
        Ok(Verdict::Send(line.into_bytes(), Purpose::Active(route)))
    }
}

/// The relay answers a line itself.
fn answer(code: Code, text: &'static str) -> Verdict {
    Verdict::Answer(Reply::new(code, text))
}

/// What the server would be sent for a line, and whether that is clear.
fn sent_for(line: &OwnedLine) -> Result<(Vec<u8>, bool), Error> {
    if is_option(line) {
        let sent = as_it_is(&line.bytes);
        let is_clear = is_clear(&sent);
        return Ok((sent, is_clear));
    }
    let forwarded = forward(&line.bytes)?;
    // a CR after the verb is sent as a space, but some servers read another verb there
    let has_return = text_of(&line.bytes).contains(&b'\r');
    Ok((forwarded.bytes, forwarded.is_clear && !has_return))
}

/// A line without its end.
fn text_of(line: &[u8]) -> &[u8] {
    let text = line.strip_suffix(b"\n").unwrap_or(line);
    text.strip_suffix(b"\r").unwrap_or(text)
}

/// A line as it is, with CR LF at its end.
fn as_it_is(line: &[u8]) -> Vec<u8> {
    [text_of(line), b"\r\n"].concat()
}
