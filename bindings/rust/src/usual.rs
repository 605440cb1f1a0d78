//! The usual replies, and those of a login: as the library writes them.
use crate::code::ReplyCode;
use crate::command::Command;
use crate::event::{Event, Refusal};
use crate::ffi;
use crate::reply::Reply;

/// How many bytes such a reply has at most.
const ROOM: usize = 64;

impl Event<'_> {
    /// What a server answers that does nothing for the event: [`Command::usual_reply`], or
    /// [`Refusal::reply`].
    ///
    /// ```
    /// use unftp_control::{Command, Event, Pending, Reply, ReplyCode};
    ///
    /// let mut pending = Pending::new();
    /// pending.push(b"PWD\r\nNOOP\r\nMODE S\r\nRETR a\r\nRETR\r\n")?;
    /// let mut codes = Vec::new();
    /// while let Some(event) = pending.next_event()? {
    ///     let reply = match event {
    ///         Event::Command(Command::Pwd) => Reply::directory(b"/")?,
    ///         event => event.usual_reply(),
    ///     };
    ///     codes.push(reply.code().get());
    /// }
    /// assert_eq!(codes, [257, 200, 200, 502, 501]);
    /// # Ok::<(), unftp_control::Error>(())
    /// ```
    pub fn usual_reply(&self) -> Reply {
        match self {
            Event::Command(command) => command.usual_reply(),
            Event::Refused(refusal) => refusal.reply(),
        }
    }
}

impl Command<'_> {
    /// What a server answers that does nothing for the command (RFC 959, sections 4.2.2 and 5.4).
    ///
    /// | command | reply |
    /// |---|---|
    /// | `Noop` | 200 `OK` |
    /// | `Quit` | 221 `Bye`; then the server closes the connection |
    /// | `Help` | 214 `This is an FTP server` |
    /// | `Syst` | 215 `UNIX Type: L8` |
    /// | `Acct`, `Allo` | 202: it is superfluous |
    /// | `Stru`, `Mode`, `Opts` | 200 for `File`, `Stream` and UTF-8 on, and else 504 |
    /// | `Type` | 504: the command doesn't hold its parameter, and 200 would promise that type |
    /// | `Auth`, `Prot`, `Pbsz`, `Ccc` | 502 `TLS/SSL not configured` |
    /// | any other | 502 `Not implemented` |
    ///
    /// A server with a type answers `Type` itself, by [`Line::parameter`](crate::Line::parameter). It
    /// answers `Pwd` by [`Reply::directory`] and `Feat` by [`Reply::features`]; a
    /// [`Login`](crate::Login) answers `User` and `Pass`.
    pub fn usual_reply(&self) -> Reply {
        usual(self.number(), &self.value().unwrap_or_default())
    }
}

impl Refusal {
    /// The reply to the line: 501 where its verb doesn't take its parameter, and else 500 (RFC 959,
    /// section 4.2.2).
    ///
    /// ```
    /// use unftp_control::Refusal;
    ///
    /// let reply = Refusal::InvalidCommand.reply();
    /// assert_eq!(reply.to_bytes()?, b"501 Invalid parameter\r\n");
    /// let reply = Refusal::LineTooLong.reply();
    /// assert_eq!(reply.to_bytes()?, b"500 Line too long\r\n");
    /// # Ok::<(), unftp_control::Error>(())
    /// ```
    pub fn reply(self) -> Reply {
        usual(self.number(), &[])
    }
}

fn usual(event: u32, value: &[u8]) -> Reply {
    made(|out| ffi::usual_reply(event, value, out))
}

/// The reply at a step of a login that answers the event, and after what the accounts say.
pub(crate) fn login_reply(step: u32, accepted: bool) -> Reply {
    made(|out| ffi::login_reply(step, accepted, out))
}

/// The reply of one line that a call writes.
fn made(call: impl FnOnce(&mut [u8]) -> (u32, usize)) -> Reply {
    let mut area = [0; ROOM];
    let (status, len) = call(&mut area);
    let line = area.get(..len).and_then(|line| line.strip_suffix(b"\r\n"));
    let Some([hundreds, tens, ones, b' ', text @ ..]) = line else {
        unreachable!("an event or a step has a reply of one line: the call returned {status}");
    };
    let digits = [hundreds, tens, ones].map(|digit| u16::from(digit - b'0'));
    let number = digits.iter().fold(0, |number, digit| 10 * number + digit);
    let code = ReplyCode::new(number).expect("the code of a reply is from 200 to 599");
    Reply::of_bytes(code, text.to_vec())
}
