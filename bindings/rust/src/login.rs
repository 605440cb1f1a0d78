use crate::bytes::RawBytes;
use crate::command::Command;
use crate::event::Event;
use crate::ffi;
use crate::reply::Reply;
use crate::usual::login_reply;
use std::fmt::{self, Debug, Formatter};

/// What a server that wants a login does with an event.
#[must_use]
#[derive(Debug, PartialEq, Eq)]
pub enum LoginStep<'a> {
    /// It answers the event as it would without a login.
    PassOn,
    /// It answers the event with this reply.
    Answer(Reply),
    /// It asks its accounts whether this is the password of the name, tells [`Login::answer`], and
    /// sends the reply which that returns.
    AskAccounts {
        /// The name that was given.
        name: &'a [u8],
        /// What PASS gave.
        password: crate::Password<'a>,
    },
}

/// A login before a server's commands (RFC 959, section 4.1.1): which events the server may answer,
/// and the replies to the others. It steps through `unftp_login_event` and `unftp_login_answer`, of
/// which it is proved that an event that needs a login is passed on only after one, where the server
/// does at each event what they say. This type over them is tested.
///
/// QUIT, AUTH, PBSZ, PROT, FEAT, HELP, NOOP and SYST need no login, and neither does a refused
/// line; each other command does. A name is good for the next PASS, also where other commands come
/// between. USER and AUTH flush the login, AUTH also where the server refuses it. After a password
/// that is refused the client begins again with USER. A server that takes REIN, which is
/// [`Command::Other`], makes a new `Login`.
///
/// ACCT needs a login, and is answered 530 before one. So a server that asks for an account after
/// PASS, by 332, can't use this.
///
/// ```
/// use unftp_control::{Login, LoginStep, Pending, Reply, ReplyCode};
///
/// let mut login = Login::new();
/// let mut pending = Pending::new();
/// pending.push(b"PWD\r\nUSER anna\r\nPASS wrong\r\n")?;
/// pending.push(b"USER anna\r\nPASS secret\r\nPWD\r\n")?;
/// let mut codes = Vec::new();
/// while let Some(event) = pending.next_event()? {
///     let reply = match login.event(&event) {
///         LoginStep::PassOn => Reply::new(ReplyCode::COMMAND_OKAY, "the server's own"),
///         LoginStep::Answer(reply) => reply,
///         LoginStep::AskAccounts { name, password } => {
///             let accepted = name == b"anna" && password.as_bytes() == b"secret";
///             login.answer(accepted)
///         }
///     };
///     codes.push(reply.code().get());
/// }
/// assert_eq!(codes, [530, 331, 530, 331, 230, 200]);
/// assert_eq!(login.name(), Some(&b"anna"[..]));
/// # Ok::<(), unftp_control::Error>(())
/// ```
#[derive(Clone, Default)]
pub struct Login {
    login: ffi::Login,
    /// The last name that was given.
    name: RawBytes<'static>,
}

impl Login {
    /// Nobody has logged in.
    pub fn new() -> Login {
        Login::default()
    }

    /// Takes an event, and returns what is done with it.
    pub fn event<'a>(&'a mut self, event: &'a Event<'_>) -> LoginStep<'a> {
        if let Event::Command(Command::User { username }) = event {
            self.name = username.clone().into_owned();
        }
        match (ffi::login_event(&mut self.login, event.number()), event) {
            (ffi::LOGIN_PASS_ON, _) => LoginStep::PassOn,
            (ffi::LOGIN_ASK_ACCOUNTS, Event::Command(Command::Pass { password })) => {
                LoginStep::AskAccounts { name: &self.name, password: password.as_bytes().into() }
            }
            (step, _) => LoginStep::Answer(login_reply(step, false)),
        }
    }

    /// Takes what the accounts say of a password, before the next event, and returns the reply to
    /// PASS: 230 or 530. Where the last event didn't ask for it, nobody is logged in by this, and
    /// the reply is 503.
    pub fn answer(&mut self, accepted: bool) -> Reply {
        let step = match ffi::login_answer(&mut self.login, accepted) {
            ffi::DONE => ffi::LOGIN_ASK_ACCOUNTS,
            _ => ffi::LOGIN_NEED_NAME,
        };
        login_reply(step, accepted)
    }

    /// The name of who is logged in.
    pub fn name(&self) -> Option<&[u8]> {
        (self.login.stage == 2).then_some(&*self.name)
    }
}

/// Shows how far the login has come.
impl Debug for Login {
    fn fmt(&self, f: &mut Formatter<'_>) -> fmt::Result {
        f.debug_struct("Login").field("logged_in", &self.name().is_some()).finish_non_exhaustive()
    }
}
