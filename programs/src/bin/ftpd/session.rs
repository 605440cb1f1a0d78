//! A session: a client's lines are answered in turn, and beside a transfer only ABOR and STAT are.
use crate::commands::{refuse, reply, Answer, Answered};
use crate::control::Control;
use crate::folder::{FilePath, Folder};
use crate::listing::Fact;
use crate::record::{self, Action, Outcome};
use crate::representation::Representation;
use crate::server::Server;
use crate::users::{Account, Rights};
use std::io;
use std::sync::Arc;
use std::time::Duration;
use tokio::time::{timeout, timeout_at, Instant};
use tracing::{info_span, Instrument, Level};
use unftp_control::{
    unmapped, CodecError, Command, DataPort, Event, Login, OwnedLine, Reply, ReplyCode as Code,
};
use unftp_control_programs::listening::{Connected, Stop};
use unftp_control_programs::stream::Stream;
use unftp_control_programs::tls::OfConnection;

/// How long a client may take to log in.
const LOGIN_TIME: Duration = Duration::from_secs(120);
/// How many lines may be no command before a login.
const UNKNOWN_LINES: u32 = 10;
/// How many passwords of a session may be wrong.
const WRONG_PASSWORDS: u32 = 3;
/// How long the reply takes to a password that is not looked at.
const DELAY: Duration = Duration::from_secs(1);
/// How long a client may take to read the last reply and to close.
const LINGER: Duration = Duration::from_secs(5);

/// What a session knows beside its control connection.
pub struct Session {
    /// What it shares with the others.
    pub server: Arc<Server>,
    /// Which events may be answered.
    pub login: Login,
    /// What the user may do, once one has logged in.
    pub rights: Rights,
    /// The folder that is served.
    pub folder: Folder,
    /// The working directory.
    pub directory: FilePath,
    /// That of TYPE.
    pub representation: Representation,
    /// Where the next transfer begins: that of REST.
    pub offset: u64,
    /// What is renamed, where the last command was RNFR.
    pub renamed: Option<FilePath>,
    /// What prepares the next data connection.
    pub data_port: DataPort,
    /// Whether PBSZ came, without which there is no PROT.
    pub has_pbsz: bool,
    /// Whether data connections are under TLS.
    pub is_private: bool,
    /// Whether the control connection is under TLS.
    pub is_tls: bool,
    /// What turns data connections to TLS, once the control connection is under TLS.
    pub data_tls: Option<Arc<OfConnection>>,
    /// The facts of MLSD and MLST.
    pub facts: Vec<Fact>,
    wrong_passwords: u32,
    /// How many lines before a login were no command.
    unknown_lines: u32,
    /// When the program is to end.
    pub stop: Stop,
    /// The end of the time for the login.
    deadline: Instant,
}

/// Why a session ends.
pub enum End {
    /// The client has quit, or its connection is lost.
    Closed,
    /// By the server, with a 421 of this text.
    Unavailable(&'static str),
}

/// The client is away, or sends what can't be read.
impl From<CodecError> for End {
    fn from(error: CodecError) -> End {
        tracing::debug!(%error, "the control connection has ended");
        End::Closed
    }
}

impl From<io::Error> for End {
    fn from(error: io::Error) -> End {
        CodecError::from(error).into()
    }
}

/// Serves a client that has connected.
pub async fn serve(server: Arc<Server>, connected: Connected) {
    let peer = connected.peer;
    let span = info_span!("session", address = %unmapped(peer.ip()), port = peer.port());
    let served = async {
        if let Err(error) = talk(server, connected).await {
            tracing::debug!(%error, "no session");
        }
    };
    served.instrument(span).await;
}

async fn talk(server: Arc<Server>, connected: Connected) -> io::Result<()> {
    let Connected { tcp, peer, is_implicit, is_refused, stop } = connected;
    let data_port = server.settings.common.passive.data_port(peer, tcp.local_addr()?);
    let control = Control::new(Stream::control(tcp)?, server.settings.stall);
    let mut session = Session::new(server, data_port, stop);
    let mut control = match is_implicit {
        true => session.begin_privately(control).await?,
        false => control,
    };
    if is_refused {
        tracing::warn!("too many connections");
        return unavailable(control, "Too many connections").await;
    }
    tracing::info!("connected");
    let begun = control.reply(Reply::new(Code::SERVICE_READY, "Ready"));
    let mut end = begun.map_err(End::from).err();
    loop {
        end = match end {
            None => session.serve(&mut control).await.err(),
            Some(End::Unavailable(text)) => return unavailable(control, text).await,
            Some(End::Closed) => {
                control.close(LINGER).await;
                tracing::info!("closed");
                return Ok(());
            }
        };
        if end.is_none() {
            control = session.turn_to_tls(control).await?;
        }
    }
}

/// Sends a 421, and closes.
async fn unavailable(mut control: Control, text: &'static str) -> io::Result<()> {
    tracing::info!("closed: {text}");
    let reply = Reply::new(Code::SERVICE_NOT_AVAILABLE, text);
    if control.reply(reply).is_ok() {
        control.close(LINGER).await;
    }
    Ok(())
}

impl Session {
    fn new(server: Arc<Server>, data_port: DataPort, stop: Stop) -> Session {
        let folder = server.folder.clone();
        Session {
            server,
            login: Login::new(),
            rights: Rights::Read,
            folder,
            directory: FilePath::default(),
            representation: Representation::default(),
            offset: 0,
            renamed: None,
            data_port,
            has_pbsz: false,
            is_private: false,
            is_tls: false,
            data_tls: None,
            facts: Fact::ALL.to_vec(),
            wrong_passwords: 0,
            unknown_lines: 0,
            stop,
            deadline: Instant::now() + LOGIN_TIME,
        }
    }

    /// Turns the control connection to TLS.
    async fn turn_to_tls(&mut self, control: Control) -> io::Result<Control> {
        let tls = self.server.tls.as_ref().ok_or(io::ErrorKind::Unsupported)?;
        let tls = tls.of_connection(self.data_port.client());
        let turned = control.accept_tls(&tls.control).await;
        let control = turned.map_err(|error| {
            record::failed_handshake(&error);
            error
        })?;
        self.is_tls = true;
        self.data_tls = Some(Arc::new(tls));
        Ok(control)
    }

    /// Begins under TLS. Data connections are under TLS too, unless the client asks for others.
    async fn begin_privately(&mut self, control: Control) -> io::Result<Control> {
        (self.has_pbsz, self.is_private) = (true, true);
        self.turn_to_tls(control).await
    }

    /// Answers a client's lines until the control connection is to turn to TLS.
    async fn serve(&mut self, control: &mut Control) -> Result<(), End> {
        loop {
            let line = self.line(control).await?;
            log(&line);
            let action = Action::of(&line, self);
            if self.is_foreign(&line) {
                return Err(End::Unavailable("This is FTP"));
            }
            match self.answer(&line).await {
                Answer::Reply(reply) => {
                    if let Some(action) = action {
                        action.log(self, 0, &Outcome::of(&reply, None));
                    }
                    control.reply(reply)?;
                }
                Answer::Transfer(opening, work) => {
                    control.reply(opening)?;
                    let action = action.map(|it| it.at(work.path()));
                    self.transfer(control, work, action).await?;
                }
                Answer::WrongPassword(reply, delay) => {
                    self.wrong_password(delay).await?;
                    control.reply(reply)?;
                }
                Answer::UnseenPassword => {
                    self.pause(DELAY).await;
                    return Err(too_many_passwords());
                }
                Answer::TurnToTls(reply) => {
                    control.reply(reply)?;
                    control.flush().await?;
                    return Ok(());
                }
                Answer::Quit(reply) => {
                    control.reply(reply)?;
                    return Err(End::Closed);
                }
            }
        }
    }

    /// The next line.
    async fn line(&mut self, control: &mut Control) -> Result<OwnedLine, End> {
        let idle = Instant::now() + self.server.settings.idle;
        let has_login = self.login.name().is_some();
        let deadline = if has_login { idle } else { idle.min(self.deadline) };
        let line = tokio::select! {
            line = timeout_at(deadline, control.line()) => match line {
                Ok(line) => line?,
                Err(_) => return Err(End::Unavailable("Idle too long")),
            },
            _ = self.stop.changed() => return Err(End::Unavailable("Stopping")),
        };
        if has_login {
            // this line may begin another login
            self.deadline = Instant::now() + LOGIN_TIME;
        }
        Ok(line)
    }

    /// Waits after a wrong password, of which the last one ends the session.
    async fn wrong_password(&mut self, delay: Duration) -> Result<(), End> {
        self.wrong_passwords += 1;
        self.pause(delay).await;
        if self.wrong_passwords == WRONG_PASSWORDS {
            return Err(too_many_passwords());
        }
        Ok(())
    }

    /// Waits, unless the program is to end.
    async fn pause(&mut self, delay: Duration) {
        let _ = timeout(delay, self.stop.changed()).await;
    }

    /// REIN: begins anew without a user (RFC 959, section 4.1.1). The connection stays as it is, so that
    /// none of a user's goes on without TLS (RFC 4217, section 11).
    pub fn reinitialize(&mut self) -> Answered {
        if self.is_tls {
            return refuse(Code::COMMAND_NOT_IMPLEMENTED, "Under TLS there is no REIN");
        }
        self.login = Login::new();
        self.deadline = Instant::now() + LOGIN_TIME;
        self.facts = Fact::ALL.to_vec();
        self.data_port.reset();
        let nobody = Account { rights: Rights::Read, folder: None };
        self.begin(nobody);
        reply(Code::SERVICE_READY, "Ready")
    }

    /// Whether a client that has not logged in is none of FTP: it speaks HTTP, as a browser that is
    /// sent here does with the lines of somebody else, or has sent too many lines that are no command.
    fn is_foreign(&mut self, line: &OwnedLine) -> bool {
        let is_unknown =
            matches!(line.event, Event::Refused(_) | Event::Command(Command::Other { .. }));
        if self.login.name().is_some() || !is_unknown {
            return false;
        }
        self.unknown_lines += 1;
        self.unknown_lines > UNKNOWN_LINES || line.bytes.windows(6).any(|part| part == b"HTTP/1")
    }

    /// Begins anew for a user who has logged in.
    pub fn begin(&mut self, account: Account) {
        let connection = self.data_tls.as_ref().and_then(|it| it.connection.as_ref());
        if let (Some(connection), Some(name)) = (connection, self.login.name()) {
            connection.belongs_to(name);
        }
        self.rights = account.rights;
        self.folder = account.folder.unwrap_or_else(|| self.server.folder.clone());
        self.directory = FilePath::default();
        self.representation = Representation::default();
        self.offset = 0;
        self.data_port.close();
    }
}

fn too_many_passwords() -> End {
    End::Unavailable("Too many wrong passwords")
}

/// Logs a line, without its passwords.
pub fn log(line: &OwnedLine) {
    if tracing::enabled!(Level::DEBUG) {
        match line.log_line() {
            Ok(line) => tracing::debug!("{line}"),
            Err(error) => tracing::debug!(%error, "a line can't be logged"),
        }
    }
}
