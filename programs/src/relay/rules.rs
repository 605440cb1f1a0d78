//! Which lines of clients may be sent to the server.
use std::collections::BTreeSet;
use unftp_control::{Command, Event, OwnedLine, Refusal, Reply, ReplyCode as Code};

/// Verbs that log in, ask, or read.
const READING: &str = "ABOR ACCT ALLO CDUP CLNT CWD EPRT EPSV FEAT HASH HELP HOST LANG LIST MDTM \
    MLSD MLST MODE NLST NOOP OPTS PASS PASV PORT PWD QUIT RANG REST RETR SIZE STAT STRU SYST TYPE \
    USER XCRC XMD5 XSHA XSHA1 XSHA256 XSHA512";

/// Those that write.
const WRITING: &str = "APPE AVBL DELE MFCT MFF MFMT MKD RMD RNFR RNTO SITE SMNT STOR STOU";

/// What the relay answers itself.
const OWN: [&str; 3] = ["AUTH", "PBSZ", "PROT"];

/// The others of protection (RFC 2228), which is the relay's own, and those that name an address of
/// a data connection in a way that the relay doesn't rewrite.
const NEVER: [&str; 10] =
    ["ADAT", "CCC", "CONF", "CPSV", "ENC", "LPRT", "LPSV", "MIC", "SPSV", "SSCN"];

/// The verbs that may be sent to the server.
#[derive(Clone, Debug)]
pub enum Allowed {
    /// All but those that no relay can send.
    All,
    /// These, in upper case.
    These(BTreeSet<String>),
}

impl Allowed {
    /// The verbs of the RFCs, and a few more that servers know.
    pub fn known() -> Allowed {
        Allowed::list([READING, WRITING].into_iter().flat_map(str::split_ascii_whitespace))
    }

    /// Those that log in, ask, or read.
    pub fn reading() -> Allowed {
        Allowed::list(READING.split_ascii_whitespace())
    }

    /// The verbs of a list, in any case of their letters.
    pub fn list<'a>(verbs: impl IntoIterator<Item = &'a str>) -> Allowed {
        Allowed::These(verbs.into_iter().map(str::to_ascii_uppercase).collect())
    }

    fn allows(&self, verb: &str) -> bool {
        match self {
            Allowed::All => !NEVER.contains(&verb),
            Allowed::These(verbs) => verbs.contains(verb) && !NEVER.contains(&verb),
        }
    }

    /// The reply to a line that is not sent; `None` for one that is. What would be sent is clear or
    /// not.
    pub fn refusal(&self, line: &OwnedLine, is_clear: bool) -> Option<Reply> {
        let verb = match &line.event {
            Event::Refused(_) if is_option(line) => "OPTS",
            Event::Refused(why) => {
                return Some(Reply::new(Code::COMMAND_SYNTAX_ERROR, why.to_string()));
            }
            Event::Command(_) if sets_time(line) => "MFMT",
            Event::Command(command) => command.verb(),
        };
        if !is_clear {
            Some(Reply::new(
                Code::COMMAND_SYNTAX_ERROR,
                "servers read such a line in different ways",
            ))
        } else if !OWN.contains(&verb) && !self.allows(verb) {
            Some(Reply::new(Code::COMMAND_NOT_IMPLEMENTED, "Not allowed here"))
        } else {
            None
        }
    }
}

/// Whether no line of a verb is sent to the server.
pub fn is_never_sent(verb: &str) -> bool {
    OWN.contains(&verb) || NEVER.contains(&verb)
}

/// Whether a line is OPTS with an option of which no command is, as `OPTS MLST size` (RFC 3659,
/// section 7.9). It may be sent as it is.
pub fn is_option(line: &OwnedLine) -> bool {
    let verb = line.bytes.get(..5).unwrap_or_default();
    line.event == Event::Refused(Refusal::InvalidCommand) && verb.eq_ignore_ascii_case(b"OPTS ")
}

/// Whether a line is MDTM with a time before the path, as `MDTM 20010203040506 a`. Some servers set
/// the time of the file then, as by MFMT. Eight digits are a date.
fn sets_time(line: &OwnedLine) -> bool {
    let is_time = |(word, _): (&str, &str)| {
        word.len() >= 8 && word.starts_with(|first: char| first.is_ascii_digit())
    };
    matches!(&line.event, Event::Command(Command::Mdtm { file })
        if file.trim_start().split_once(' ').is_some_and(is_time))
}
