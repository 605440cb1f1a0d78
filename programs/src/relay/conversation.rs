//! What a relay does with lines and replies, without the control connections.
use super::data::{Progress, Route, Transfer};
use super::exchange::{Answer, Exchange};
use super::protection::Protection;
use super::Relay;
use crate::server_tls::ToServer;
use crate::telnet::Telnet;
use crate::tls::OfConnection;
use bytes::BytesMut;
use std::future::Future;
use std::net::SocketAddr;
use std::sync::Arc;
use std::time::Duration;
use std::{io, mem};
use tokio::time::Instant;
use tokio_util::codec::Decoder;
use unftp_control::{
    find_extended_port, find_host_port, Client, CodecError, Command, Error, Event, FtpLineCodec,
    OwnedLine, ReceivedReply, Reply, ReplyCode as Code, ReplyValue, To,
};

/// How long a server may take to see an ABOR by itself.
const ABORTING: Duration = Duration::from_secs(1);
/// How many lines may be owed their replies.
const MOST_OWED: u64 = 64;

/// How many bytes of the client, and of what a side is to be sent, may wait.
pub const MOST_PENDING: usize = 64 * 1024;
/// How many exchanges may wait to be recorded.
const MOST_EXCHANGES: usize = 64;

/// Why a session ends.
#[derive(Debug)]
pub enum End {
    /// The client was told, or can't be told.
    Silent,
    /// The client is told by a 421 with this text.
    Told(&'static str),
}

/// What ends the session where a line is taken or answered out of order, which no path does.
const OUT_OF_ORDER: End = End::Told("The relay has lost the order of its replies");

impl From<io::Error> for End {
    fn from(_: io::Error) -> End {
        End::Silent
    }
}

impl From<Error> for End {
    fn from(error: Error) -> End {
        End::Told(match error {
            Error::MalformedReply | Error::ReplyTooLong => "The server's reply can't be read",
            _ => "Out of memory",
        })
    }
}

impl From<CodecError> for End {
    fn from(_: CodecError) -> End {
        End::Told("Out of memory")
    }
}

/// The addresses of both control connections.
#[derive(Clone, Copy, Debug)]
pub struct Addresses {
    /// The client's.
    pub client: SocketAddr,
    /// The relay's own, which the client talks to.
    pub to_client: SocketAddr,
    /// The server's.
    pub server: SocketAddr,
    /// The relay's own, which the server talks to.
    pub to_server: SocketAddr,
}

/// What the replies to a line are used for.
pub(super) enum Purpose {
    /// The client only.
    PassOn,
    /// The features are those of the relay, where they are of TLS.
    Features,
    /// The final one comes after the data. That of a download waits until the client was sent all.
    Transfer { is_download: bool },
    /// The server listens for the data connection. The client asked by EPSV or PASV.
    Passive { is_extended: bool },
    /// The server may connect to the relay, and the relay to the client.
    Active(Route),
    /// A login of this user, whose the connection is where it succeeds.
    Login(Vec<u8>),
}

/// A line that is owed its final reply.
struct Asked {
    exchange: Exchange,
    purpose: Purpose,
}

/// What is done with a line.
pub(super) enum Verdict {
    /// The server is sent this line.
    Send(Vec<u8>, Purpose),
    /// The relay answers it.
    Answer(Reply),
    /// The relay answers it, and what comes after depends on it.
    Protect,
}

/// The state of a session.
pub struct Conversation {
    pub(super) relay: Arc<Relay>,
    session: u64,
    pub(super) addresses: Addresses,
    telnet: Telnet,
    lines: FtpLineCodec,
    input: BytesMut,
    /// Complete lines may be left in `input`.
    has_lines: bool,
    /// The line that is taken, and neither sent nor answered yet.
    waiting: Option<(OwnedLine, Exchange)>,
    /// The order of lines and replies. A reply that waits for the data is not taken from it.
    dialogue: Client<Asked>,
    /// The next reply waits for the data.
    pub is_holding: bool,
    pub(super) transfer: Option<Transfer>,
    pub(super) protection: Protection,
    /// What turns the client's connections to TLS, where it asks for that.
    pub tls: Option<Arc<OfConnection>>,
    /// What turns the server's data connections to TLS, where they are under it.
    pub(super) to_server_tls: Option<Arc<ToServer>>,
    pub(super) has_user: bool,
    /// The name of the last USER.
    pub(super) user: Vec<u8>,
    /// The last reply that was passed on was a 221 or a 421.
    is_closing: bool,
    /// TLS is to begin, once `to_client` is sent.
    pub begins_tls: bool,
    /// The last line is an ABOR of a transfer.
    pub is_urgent: bool,
    /// When the data connection is closed of a transfer that is aborted, unless a final reply comes
    /// before.
    pub closes_at: Option<Instant>,
    /// A line or a reply has come since this was last cleared.
    pub is_active: bool,
    /// What the client is to be sent.
    pub to_client: BytesMut,
    /// What the server is to be sent.
    pub to_server: Vec<u8>,
    /// The exchanges that are complete.
    pub exchanges: Vec<Exchange>,
}

impl Conversation {
    /// One in which nothing was sent.
    pub fn new(
        relay: Arc<Relay>,
        session: u64,
        addresses: Addresses,
        tls: Option<Arc<OfConnection>>,
        to_server_tls: Option<Arc<ToServer>>,
    ) -> Conversation {
        let lines = FtpLineCodec::with_limit(relay.limits.line);
        Conversation {
            relay,
            session,
            addresses,
            telnet: Telnet::default(),
            lines,
            input: BytesMut::new(),
            has_lines: false,
            waiting: None,
            dialogue: Client::with_values(),
            is_holding: false,
            transfer: None,
            protection: Protection::default(),
            tls,
            to_server_tls,
            has_user: false,
            user: Vec::new(),
            is_closing: false,
            begins_tls: false,
            is_urgent: false,
            closes_at: None,
            is_active: false,
            to_client: BytesMut::new(),
            to_server: Vec::new(),
            exchanges: Vec::new(),
        }
    }

    /// Takes what the client has sent.
    pub fn receive_from_client(&mut self, piece: &[u8]) -> Result<(), End> {
        let from = self.input.len();
        self.input.extend_from_slice(piece);
        self.telnet.strip(&mut self.input, from);
        self.has_lines = true;
        self.advance()
    }

    /// Takes what the server has sent.
    pub fn receive_from_server(&mut self, piece: &[u8]) -> Result<(), End> {
        self.dialogue.receive(piece)?;
        self.advance()
    }

    /// How many bytes of the client wait.
    pub fn pending(&self) -> usize {
        self.input.len()
    }

    /// Whether each line has its reply.
    pub fn is_at_rest(&self) -> bool {
        self.dialogue.is_greeted() && self.dialogue.owed() == 0 && self.has_taken_all()
    }

    /// Whether each line was sent to the server, or answered.
    pub fn has_taken_all(&self) -> bool {
        self.waiting.is_none() && !self.has_lines
    }

    /// Whether more may be answered before what waits is sent and recorded.
    pub fn has_room(&self) -> bool {
        self.to_client.len() < MOST_PENDING && self.exchanges.len() < MOST_EXCHANGES
    }

    /// Whether data may be under way.
    pub fn is_transferring(&self) -> bool {
        matches!(self.progress(), Some(Progress::Awaited | Progress::Open))
    }

    fn is_delivered(&self) -> bool {
        matches!(self.progress(), None | Some(Progress::Delivered))
    }

    fn progress(&self) -> Option<Progress> {
        self.transfer.as_ref().map(Transfer::progress)
    }

    /// Waits until the data is sent, or can't be. Then `release` is to be called.
    pub fn transferred(&self) -> impl Future<Output = ()> {
        let ended = self.transfer.as_ref().map(Transfer::ended);
        async move {
            if let Some(ended) = ended {
                ended.await;
            }
        }
    }

    /// What ends the session where the server has closed its connection.
    pub fn server_end(&self) -> End {
        if self.is_closing {
            End::Silent
        } else {
            End::Told("The server has closed the connection")
        }
    }

    /// Passes on the reply that waited for the data. Where the data was lost, the reply says so.
    pub fn release(&mut self) -> Result<(), End> {
        let lost = || Reply::new(Code::CONNECTION_CLOSED, "The data connection was lost");
        let is_lost = matches!(self.progress(), Some(Progress::Open | Progress::Failed));
        if mem::take(&mut self.is_holding) {
            self.take_reply(is_lost.then(lost))?;
        }
        self.advance()
    }

    /// Begins under TLS. Data connections are under TLS too, unless the client asks for others.
    pub fn begin_privately(&mut self) {
        self.protection = Protection { is_tls: true, has_size: true, is_private: true };
    }

    /// Goes on under TLS. What came in clear text is dropped, and so is a data connection.
    pub fn begin_tls(&mut self) {
        self.begins_tls = false;
        self.transfer = None;
        self.protection.is_tls = true;
        self.telnet = Telnet::default();
        self.lines = FtpLineCodec::with_limit(self.relay.limits.line);
        self.input.clear();
        self.has_lines = false;
    }

    /// Ends it, by a 421 of the relay where the client is told why. Lines that are owed replies are
    /// recorded too: the server may do what they ask for.
    pub fn end(&mut self, end: End) -> Result<(), Error> {
        let last = match end {
            End::Silent => None,
            End::Told(text) => Some(Reply::new(Code::SERVICE_NOT_AVAILABLE, text)),
        };
        if let Some(reply) = &last {
            reply.encode(&mut self.to_client)?;
        }
        let owed = mem::take(&mut self.dialogue).into_values().map(|asked| asked.exchange);
        for mut exchange in owed.chain(self.waiting.take().map(|(_, exchange)| exchange)) {
            match &last {
                Some(reply) => exchange.note(Answer::Own(reply.clone())),
                None => exchange.is_unanswered = true,
            }
            self.exchanges.push(exchange);
        }
        Ok(())
    }

    /// Passes on all that can be passed on.
    pub fn advance(&mut self) -> Result<(), End> {
        loop {
            self.take_replies()?;
            if !self.take_line()? {
                return Ok(());
            }
        }
    }

    /// Takes all replies, unless one waits: the final one to a download waits for the data.
    fn take_replies(&mut self) -> Result<(), End> {
        while !self.is_holding {
            let is_delivered = self.is_delivered();
            let Some(first) = self.dialogue.first_reply_with()? else { return Ok(()) };
            self.is_active = true;
            if let To::Command(Asked { purpose, .. }) = first.to {
                match (purpose, first.reply.code()) {
                    (Purpose::Passive { .. }, 227 | 229) => {}
                    // it stays owed: what ends the session answers its line
                    (_, 227 | 229) => {
                        return Err(End::Told("The server named an address that nobody asked for"));
                    }
                    (Purpose::Transfer { is_download: true }, 226 | 250) => {
                        self.is_holding = !is_delivered;
                    }
                    _ => {}
                }
            }
            if !self.is_holding {
                self.take_reply(None)?;
            }
        }
        Ok(())
    }

    /// Takes a reply and passes it on, or what is sent instead of a final one.
    fn take_reply(&mut self, instead: Option<Reply>) -> Result<(), End> {
        let Some(taken) = self.dialogue.next_reply_with()? else { return Ok(()) };
        let (to, reply) = (taken.to, taken.reply.into_owned());
        match to {
            To::Greeting => self.greet(reply)?,
            To::Command(ReplyValue::Preliminary(asked)) => {
                self.to_client.extend_from_slice(reply.bytes());
                asked.exchange.note(Answer::Received(reply));
            }
            To::Command(ReplyValue::Final(Asked { exchange, purpose })) => {
                self.is_closing = matches!(reply.code(), 221 | 421);
                self.closes_at = None;
                match instead.or_else(|| self.rewritten(purpose, &reply)) {
                    Some(instead) => self.give(exchange, instead)?,
                    None => self.pass(exchange, reply),
                }
            }
            To::Nothing if reply.code() == 421 => {
                self.pass_unasked(reply);
                return Err(End::Silent);
            }
            To::Nothing => return Err(End::Told("The server sent a reply too many")),
        }
        Ok(())
    }

    fn greet(&mut self, reply: ReceivedReply<'static>) -> Result<(), End> {
        let is_served = reply.code() < 400;
        self.pass_unasked(reply);
        is_served.then_some(()).ok_or(End::Silent)
    }

    /// Passes on a reply that is to no line.
    fn pass_unasked(&mut self, reply: ReceivedReply<'static>) {
        self.pass(Exchange::new(self.session, self.addresses.client, None), reply);
    }

    /// Passes on the last reply of an exchange.
    fn pass(&mut self, mut exchange: Exchange, reply: ReceivedReply<'static>) {
        self.to_client.extend_from_slice(reply.bytes());
        exchange.note(Answer::Received(reply));
        self.exchanges.push(exchange);
    }

    /// Closes the data connection of a transfer that is aborted.
    pub fn close_transfer(&mut self) {
        (self.closes_at, self.transfer) = (None, None);
    }

    /// What the client is sent in place of a final reply, where that has to differ.
    fn rewritten(&mut self, purpose: Purpose, reply: &ReceivedReply<'_>) -> Option<Reply> {
        match (purpose, reply.code()) {
            (Purpose::Features, 211) => Some(self.features(reply)),
            (Purpose::Passive { is_extended }, 227 | 229) => Some(
                named_port(reply)
                    .and_then(|port| self.listen_for_client(port, is_extended))
                    .unwrap_or_else(|| {
                        Reply::new(Code::CANT_OPEN_DATA_CONNECTION, "No data connection")
                    }),
            ),
            (Purpose::Active(route), 200..=299) => {
                self.transfer = Some(Transfer::start(route, self.data_tls()));
                None
            }
            (Purpose::Login(user), 230..=232) => {
                self.belongs_to(&user);
                None
            }
            _ => None,
        }
    }

    /// Takes a line and does what is to be done with it, unless there is none or it has to wait.
    fn take_line(&mut self) -> Result<bool, End> {
        let has_room = self.has_room() && self.dialogue.owed() < MOST_OWED;
        // the last line is sent or answered, or is answered now
        let is_its_turn = self.dialogue.may_take_line() || self.may_answer();
        if !self.dialogue.is_greeted() || self.begins_tls || !has_room || !is_its_turn {
            return Ok(false);
        }
        let (line, exchange) = match self.waiting.take() {
            Some(waiting) => waiting,
            None => {
                let Some(line) = self.lines.decode(&mut self.input)? else {
                    self.has_lines = false;
                    return Ok(false);
                };
                self.is_active = true;
                let shown = line.log_line()?;
                let exchange = Exchange::new(self.session, self.addresses.client, Some(shown));
                self.dialogue.take_line().then_some((line, exchange)).ok_or(OUT_OF_ORDER)?
            }
        };
        match self.decide(&line) {
            Verdict::Send(sent, purpose) => self.send(line, &sent, Asked { exchange, purpose })?,
            _ if !self.may_answer() => {
                self.waiting = Some((line, exchange));
                return Ok(false);
            }
            Verdict::Answer(reply) => self.answer(exchange, reply)?,
            Verdict::Protect => {
                let reply = self.protect(&line.event);
                self.answer(exchange, reply)?;
            }
        }
        Ok(true)
    }

    /// Whether the line that is taken may be answered. Each answer of the relay is final.
    fn may_answer(&self) -> bool {
        self.dialogue.may_answer(Code::COMMAND_OKAY)
    }

    /// Answers the line that is taken.
    fn answer(&mut self, exchange: Exchange, reply: Reply) -> Result<(), End> {
        match self.dialogue.answer(reply.code()) {
            true => self.give(exchange, reply),
            false => Err(OUT_OF_ORDER),
        }
    }

    /// Sends the client a reply of the relay.
    fn give(&mut self, mut exchange: Exchange, reply: Reply) -> Result<(), End> {
        reply.encode(&mut self.to_client)?;
        exchange.note(Answer::Own(reply));
        self.exchanges.push(exchange);
        Ok(())
    }

    /// Sends a line to the server, for this one of the client.
    fn send(&mut self, line: OwnedLine, sent: &[u8], asked: Asked) -> Result<(), End> {
        self.is_urgent = false;
        match &line.event {
            Event::Command(Command::Abor) => self.abort()?,
            Event::Command(Command::User { username }) => {
                self.has_user = true;
                self.user = username.to_vec();
            }
            _ => {}
        }
        if let Err(unsent) = self.dialogue.send_line_with(sent, asked, &mut self.to_server) {
            // what ends the session answers the line
            self.waiting = Some((line, unsent.value.exchange));
            return Err(unsent.error.into());
        }
        self.hide_neighbours();
        Ok(())
    }

    /// Where the server counts its replies otherwise, a hidden line's reply comes as that to one of
    /// the others.
    fn hide_neighbours(&mut self) {
        if self.dialogue.values().any(|asked| asked.exchange.is_hidden()) {
            self.dialogue.values_mut().for_each(|asked| asked.exchange.hide());
        }
    }

    /// No reply waits for the data of what is aborted: the client may not read it any more.
    fn abort(&mut self) -> Result<(), End> {
        if mem::take(&mut self.is_holding) {
            self.take_reply(None)?;
        }
        for asked in self.dialogue.values_mut() {
            if matches!(asked.purpose, Purpose::Transfer { .. }) {
                asked.purpose = Purpose::PassOn;
                self.is_urgent = true;
            }
        }
        // under TLS nothing is urgent, and some servers look at no line within a transfer
        if self.is_urgent && self.to_server_tls.is_some() {
            self.closes_at = Some(Instant::now() + ABORTING);
        }
        Ok(())
    }
}

/// The port that a 227 or a 229 names, in any of its lines.
fn named_port(reply: &ReceivedReply<'_>) -> Option<u16> {
    let port_in = |line: &[u8]| match reply.code() {
        227 => find_host_port(line).map(|address| address.port()),
        _ => find_extended_port(line),
    };
    reply.lines().filter_map(port_in).find(|port| *port != 0)
}
