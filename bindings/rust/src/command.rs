use crate::bytes::{Password, RawBytes};
use crate::error::Error;
use crate::event::Event;
use crate::ffi::Given;
use crate::lines::Lines;
use crate::log;
use crate::parameters::{AuthParam, ModeParam, Opt, ProtParam, StruParam};
use crate::shown;
use std::borrow::Cow;
use std::fmt::{self, Debug, Display, Formatter};

/// A command that a client sends on the control connection. Its texts and bytes are borrowed from
/// the [`Pending`](crate::Pending) that gave it, or owned: [`into_owned`](Command::into_owned)
/// makes a `Command<'static>`.
///
/// A text is UTF-8, with U+FFFD for each ill-formed part of what was sent; [`RawBytes`] are as they
/// were sent. In both, a carriage return that was sent as CR NUL is one CR (RFC 854).
///
/// Where a command ignores its parameter, as TYPE does, [`Line::parameter`](crate::Line::parameter)
/// has it. Its [line](Command::to_line) is always the same, as `TYPE I`: another is sent by
/// [`Client::send_line`](crate::Client::send_line).
///
/// tnftp and lftp send Telnet's bytes before ABOR, IAC IP IAC DM, which is `\xff\xf4\xff\xf2`
/// (RFC 854). With them the line is refused: the caller takes them away before.
///
/// `Debug` shows an account, and of a password only asterisks. So it does of the arguments of
/// `Other`, and of its name where that is not one of a few known ones: a mistyped PASS is such a
/// verb. Of `Site` it shows name and arguments of CHMOD, IDLE, MD5, UMASK and UTIME, and the name
/// of EXEC, GPASS, GROUP, HELP and PSWD. The name of `User` and paths are shown, and so is a
/// password that a client sends in their place.
///
/// ```
/// use unftp_control::Command;
///
/// let other = Command::Other { command_name: "PSAS".into(), arguments: "secret".into() };
/// assert_eq!(format!("{other:?}"), "Other { command_name: ***, arguments: *** }");
/// ```
#[derive(Clone, PartialEq, Eq)]
#[non_exhaustive]
pub enum Command<'a> {
    // variants: made by tools/gate/verbs of FtpCommand.antt
    /// USER: who logs in (RFC 959, section 4.1.1).
    User {
        /// The name as the client sent it, in no particular encoding; it may be empty.
        username: RawBytes<'a>,
    },
    /// PASS: the password (RFC 959, section 4.1.1).
    Pass {
        /// The password as the client sent it; it may be empty.
        password: Password<'a>,
    },
    /// ACCT: the account (RFC 959, section 4.1.1).
    Acct {
        /// The account as the client sent it; it may be empty.
        account: RawBytes<'a>,
    },
    /// SYST: asks for the operating system (RFC 959, section 4.1.3). Its parameter is ignored.
    Syst,
    /// STAT: asks for the status of the server, or of a path (RFC 959, section 4.1.3).
    Stat {
        /// The path as the client sent it; never an empty one.
        path: Option<RawBytes<'a>>,
    },
    /// TYPE: the representation of files (RFC 959, section 4.1.2). Its parameter is ignored.
    Type,
    /// STRU: the structure of files (RFC 959, section 4.1.2).
    Stru {
        /// The structure.
        structure: StruParam,
    },
    /// MODE: the transfer mode (RFC 959, section 4.1.2).
    Mode {
        /// The mode.
        mode: ModeParam,
    },
    /// HELP: asks for help on the server (RFC 959, section 4.1.3). Its parameter is ignored.
    Help,
    /// NOOP: do nothing (RFC 959, section 4.1.3).
    Noop,
    /// PASV: listen for the data connection (RFC 959, section 4.1.2).
    Pasv,
    /// EPSV: listen for the data connection, over IPv4 or IPv6 (RFC 2428, section 3). Its parameter
    /// is ignored.
    Epsv,
    /// PORT: connect to the client for data (RFC 959, section 4.1.2).
    Port {
        /// The address and port as the client wrote them; not empty.
        addr: Cow<'a, str>,
    },
    /// RETR: send a file (RFC 959, section 4.1.3).
    Retr {
        /// The file; not empty.
        path: Cow<'a, str>,
    },
    /// STOR: store a file (RFC 959, section 4.1.3).
    Stor {
        /// The file; not empty.
        path: Cow<'a, str>,
    },
    /// APPE: append to a file (RFC 959, section 4.1.3).
    Appe {
        /// The file; not empty.
        path: Cow<'a, str>,
    },
    /// LIST: list a directory for people (RFC 959, section 4.1.3).
    List {
        /// None in a command from [`Pending`](crate::Pending), which drops option words.
        options: Option<Cow<'a, str>>,
        /// What to list; in a command from [`Pending`](crate::Pending) not empty.
        path: Option<Cow<'a, str>>,
    },
    /// NLST: list the names in a directory (RFC 959, section 4.1.3).
    Nlst {
        /// What to list; never an empty path.
        path: Option<Cow<'a, str>>,
    },
    /// MLST: asks for the facts of a path (RFC 3659, section 7).
    Mlst {
        /// The path; never an empty one.
        path: Option<Cow<'a, str>>,
    },
    /// MLSD: list a directory with facts (RFC 3659, section 7).
    Mlsd {
        /// The directory; never an empty path.
        path: Option<Cow<'a, str>>,
    },
    /// FEAT: list the features beyond RFC 959 (RFC 2389, section 3).
    Feat,
    /// PWD or XPWD: asks for the working directory (RFC 959, section 4.1.3; RFC 1123, section
    /// 4.1.3.1).
    Pwd,
    /// CWD or XCWD: change the working directory (RFC 959, section 4.1.1; RFC 1123, section
    /// 4.1.3.1).
    Cwd {
        /// The directory; not empty.
        path: Cow<'a, str>,
    },
    /// CDUP: go to the parent directory (RFC 959, section 4.1.1).
    Cdup,
    /// OPTS: set an option (RFC 2389, section 4).
    Opts {
        /// The option.
        option: Opt,
    },
    /// DELE: delete a file (RFC 959, section 4.1.3).
    Dele {
        /// The file; not empty.
        path: Cow<'a, str>,
    },
    /// RMD: remove a directory (RFC 959, section 4.1.3).
    Rmd {
        /// The directory; not empty.
        path: Cow<'a, str>,
    },
    /// QUIT or BYE: end the session (RFC 959, section 4.1.1).
    Quit,
    /// MKD or XMKD: make a directory (RFC 959, section 4.1.3; RFC 1123, section 4.1.3.1).
    Mkd {
        /// The directory; not empty.
        path: Cow<'a, str>,
    },
    /// ALLO: reserve room (RFC 959, section 4.1.3). Its parameter is ignored.
    Allo,
    /// ABOR: end the transfer that is under way (RFC 959, section 4.1.3).
    Abor,
    /// STOU: store under a name that the server chooses (RFC 959, section 4.1.3).
    Stou,
    /// RNFR: which file is renamed (RFC 959, section 4.1.3).
    Rnfr {
        /// The file; not empty.
        file: Cow<'a, str>,
    },
    /// RNTO: what it is renamed to (RFC 959, section 4.1.3).
    Rnto {
        /// The new name; not empty.
        file: Cow<'a, str>,
    },
    /// AUTH: protect the control connection (RFC 2228, section 3; RFC 4217, section 4).
    Auth {
        /// The mechanism.
        protocol: AuthParam,
    },
    /// CCC: go on without protection of the control connection (RFC 2228, section 3).
    Ccc,
    /// PBSZ: the size of protected buffers, always 0 (RFC 2228, section 3; RFC 4217, section 9).
    Pbsz,
    /// PROT: the protection of the data connection (RFC 2228, section 3).
    Prot {
        /// The level.
        param: ProtParam,
    },
    /// SIZE: asks for the size of a file (RFC 3659, section 4).
    Size {
        /// The file; not empty.
        file: Cow<'a, str>,
    },
    /// REST: where the next transfer begins (RFC 3659, section 5).
    Rest {
        /// The offset in bytes.
        offset: u64,
    },
    /// MDTM: asks when a file was modified (RFC 3659, section 3).
    Mdtm {
        /// The file; not empty.
        file: Cow<'a, str>,
    },
    /// SITE MD5: asks for the MD5 sum of a file; of no RFC.
    Md5 {
        /// The file; not empty.
        file: Cow<'a, str>,
    },
    /// SITE with any other subcommand (RFC 959, section 4.1.3).
    Site {
        /// The subcommand, its ASCII letters in upper case; it may be empty.
        command: Cow<'a, str>,
        /// What follows the subcommand; it may be empty.
        arguments: Cow<'a, str>,
    },
    /// A verb of no other variant.
    Other {
        /// The verb, its ASCII letters in upper case; it may be empty.
        command_name: Cow<'a, str>,
        /// What follows the verb; it may be empty.
        arguments: Cow<'a, str>,
    },
    // end of variants
}

/// Gives a macro each command, after its other arguments: its number in the header, its variant, its
/// verb, what makes its fields of a name and a value, and these fields.
macro_rules! for_each_command {
    ($call:ident!($($argument:expr),*)) => {
        $call! {
            $($argument,)*
            // rows: made by tools/gate/verbs of FtpCommand.antt
            1 User "USER" bytes { username }
            2 Pass "PASS" password { password }
            3 Acct "ACCT" bytes { account }
            4 Syst "SYST" nothing {}
            5 Stat "STAT" optional_bytes { path }
            6 Type "TYPE" nothing {}
            7 Stru "STRU" structure { structure }
            8 Mode "MODE" mode { mode }
            9 Help "HELP" nothing {}
            10 Noop "NOOP" nothing {}
            11 Pasv "PASV" nothing {}
            12 Epsv "EPSV" nothing {}
            13 Port "PORT" text { addr }
            14 Retr "RETR" text { path }
            15 Stor "STOR" text { path }
            16 Appe "APPE" text { path }
            17 List "LIST" listing { options, path }
            18 Nlst "NLST" optional_text { path }
            19 Mlst "MLST" optional_text { path }
            20 Mlsd "MLSD" optional_text { path }
            21 Feat "FEAT" nothing {}
            22 Pwd "PWD" nothing {}
            23 Cwd "CWD" text { path }
            24 Cdup "CDUP" nothing {}
            25 Opts "OPTS" option { option }
            26 Dele "DELE" text { path }
            27 Rmd "RMD" text { path }
            28 Quit "QUIT" nothing {}
            29 Mkd "MKD" text { path }
            30 Allo "ALLO" nothing {}
            31 Abor "ABOR" nothing {}
            32 Stou "STOU" nothing {}
            33 Rnfr "RNFR" text { file }
            34 Rnto "RNTO" text { file }
            35 Auth "AUTH" mechanism { protocol }
            36 Ccc "CCC" nothing {}
            37 Pbsz "PBSZ" nothing {}
            38 Prot "PROT" protection { param }
            39 Size "SIZE" text { file }
            40 Rest "REST" offset { offset }
            41 Mdtm "MDTM" text { file }
            42 Md5 "SITE" text { file }
            43 Site "SITE" named { command, arguments }
            44 Other "" named { command_name, arguments }
            // end of rows
        }
    };
}

/// Makes the command of the same variant and fields that owns them.
macro_rules! owned {
    ($command:expr, $($number:literal $variant:ident $verb:literal $makes:ident { $($field:ident),* })*) => {
        match $command {
            $(Command::$variant { $($field),* } => Command::$variant {
                $($field: $field.into_owned_field()),*
            },)*
        }
    };
}

/// The number of a command.
macro_rules! number {
    ($command:expr, $($number:literal $variant:ident $verb:literal $makes:ident $fields:tt)*) => {
        match $command {
            $(Command::$variant { .. } => $number,)*
        }
    };
}

/// The verb of a command, where that is not a field of it.
macro_rules! verb {
    ($command:expr, $($number:literal $variant:ident $verb:literal $makes:ident $fields:tt)*) => {
        match $command {
            $(Command::$variant { .. } => $verb,)*
        }
    };
}

/// The value of a command, as its line has it.
macro_rules! value {
    ($command:expr, $($number:literal $variant:ident $verb:literal $makes:ident { $($field:ident),* })*) => {
        match $command {
            $(Command::$variant { $($field),* } => last_of!($($field),*),)*
        }
    };
}

/// The value of the last field: none, where there is no field.
macro_rules! last_of {
    () => {
        None
    };
    ($field:ident) => {
        $field.value()
    };
    ($first:ident, $field:ident) => {{
        let _ = $first;
        $field.value()
    }};
}

/// Writes the variant and its fields, as a derived `Debug` does.
macro_rules! debug {
    ($command:expr, $f:expr, $($number:literal $variant:ident $verb:literal $makes:ident { $($field:ident),* })*) => {
        match $command {
            $(Command::$variant { $($field),* } => {
                $f.debug_struct(stringify!($variant))$(.field(stringify!($field), $field))*.finish()
            })*
        }
    };
}

impl Command<'_> {
    /// The same command, whose texts and bytes are copied where they are borrowed.
    #[inline]
    pub fn into_owned(self) -> Command<'static> {
        for_each_command!(owned!(self))
    }

    /// Its verb, in upper case: SITE also of `Md5`, and of `Other` its own, which may be empty.
    /// That of `Other` may be a mistyped PASS with the password, or a password, and is not for a
    /// log.
    pub fn verb(&self) -> &str {
        match self {
            Command::Other { command_name, .. } => command_name,
            command => for_each_command!(verb!(command)),
        }
    }

    /// Its number in the header.
    pub(crate) fn number(&self) -> u32 {
        for_each_command!(number!(self))
    }

    /// Its canonical line, with its CR LF: one that is read as exactly this command (RFC 959,
    /// section 5.3). A carriage return in a value is written as CR NUL. Before a path of LIST that
    /// begins with a dash it has `--`. A parameter that the command ignores is lost: the line of
    /// what came as `TYPE A` is `TYPE I`, of `ALLO 5` it is `ALLO 0`, and of `EPSV ALL` `EPSV`.
    ///
    /// ```
    /// use unftp_control::{Command, Error};
    ///
    /// assert_eq!(Command::Retr { path: "a b".into() }.to_line()?, b"RETR a b\r\n");
    /// let two_lines = Command::Retr { path: "a\r\nDELE b".into() };
    /// assert_eq!(two_lines.to_line(), Err(Error::NoLine));
    /// # Ok::<(), Error>(())
    /// ```
    ///
    /// # Errors
    ///
    /// [`Error::NoLine`] where no line is read as this command, as where a value has a line feed or
    /// a path is empty; and [`Error::OutOfMemory`].
    pub fn to_line(&self) -> Result<Vec<u8>, Error> {
        let line = self.composed();
        let mut lines = Lines::new(0);
        let taken = lines.take(&line).with_room().ok_or(Error::OutOfMemory)?;
        let is_whole = taken.used() == line.len();
        let event = taken.event(Keep::BORROWED);
        let is_it = matches!(event, Some(Event::Command(command)) if command == *self);
        (is_whole && is_it).then_some(line).ok_or(Error::NoLine)
    }

    /// The line that it has, if it has one.
    fn composed(&self) -> Vec<u8> {
        let value = match self {
            Command::Type => Some(Cow::Borrowed(&b"I"[..])),
            Command::Allo => Some(Cow::Borrowed(&b"0"[..])),
            Command::List { path: Some(path), .. } if path.starts_with('-') => {
                Some(Cow::Owned(format!("-- {path}").into_bytes()))
            }
            command => command.value(),
        };
        self.line_with(value)
    }

    /// The value that it holds.
    pub(crate) fn value(&self) -> Option<Cow<'_, [u8]>> {
        match self {
            Command::Pbsz => Some(Cow::Borrowed(&b"0"[..])),
            command => for_each_command!(value!(command)),
        }
    }

    /// The line of its verb and this value.
    fn line_with(&self, value: Option<Cow<'_, [u8]>>) -> Vec<u8> {
        let words: [&[u8]; 2] = match self {
            Command::Md5 { .. } => [b"SITE", b"MD5"],
            Command::Site { command, .. } => [b"SITE", command.as_bytes()],
            command => [command.verb().as_bytes(), b""],
        };
        let value = value.filter(|value| !value.is_empty());
        let value_len = value.as_ref().map_or(0, |value| value.len());
        let mut line = Vec::with_capacity(words[0].len() + words[1].len() + value_len + 8);
        line.extend_from_slice(words[0]);
        if !words[1].is_empty() || (words[0] == b"SITE" && value.is_some()) {
            line.push(b' ');
            line.extend_from_slice(words[1]);
        }
        if let Some(value) = value {
            push_value(&mut line, &value);
        }
        line.extend_from_slice(b"\r\n");
        line
    }
}

/// Appends a space and a value, each CR of which is CR NUL (RFC 854).
pub(crate) fn push_value(line: &mut Vec<u8>, value: &[u8]) {
    line.push(b' ');
    for part in value.split_inclusive(|byte| *byte == b'\r') {
        line.extend_from_slice(part);
        if part.ends_with(b"\r") {
            line.push(0);
        }
    }
}

/// What a log shows of a line with the value that the command holds: no password and no account. It
/// lacks what only the line has, which [`log_line`](crate::log_line) shows: it is `TYPE` where the
/// log line is `TYPE A`. Of a command that no line gives, only the verb, and `***` of one that is
/// `Other`.
impl Display for Command<'_> {
    fn fmt(&self, f: &mut Formatter<'_>) -> fmt::Result {
        match (self.to_line(), self) {
            (Ok(_), _) => {
                let line = self.line_with(self.value());
                f.write_str(&log::shown(self.number(), &line).map_err(|_| fmt::Error)?.text)
            }
            (Err(Error::NoLine), Command::Other { .. }) => f.write_str("***"),
            (Err(Error::NoLine), _) => f.write_str(self.verb()),
            (Err(_), _) => Err(fmt::Error),
        }
    }
}

impl Debug for Command<'_> {
    fn fmt(&self, f: &mut Formatter<'_>) -> fmt::Result {
        match self {
            Command::Site { command, arguments } => {
                let (name, value) = shown::subcommand(command, arguments);
                f.debug_struct("Site").field("command", &name).field("arguments", &value).finish()
            }
            Command::Other { command_name, .. } => {
                let (name, value) = shown::verb(command_name);
                f.debug_struct("Other")
                    .field("command_name", &name)
                    .field("arguments", &value)
                    .finish()
            }
            command => for_each_command!(debug!(command, f)),
        }
    }
}

/// A field of a command.
trait Field {
    type Owned;

    fn into_owned_field(self) -> Self::Owned;

    /// Its bytes in a line.
    fn value(&self) -> Option<Cow<'_, [u8]>>;
}

macro_rules! fields {
    ($($field:ty => $owned:ty, $this:ident: $value:expr, $bytes:expr;)*) => {
        $(impl Field for $field {
            type Owned = $owned;

            fn into_owned_field(self) -> $owned {
                let $this = self;
                $value
            }

            fn value(&self) -> Option<Cow<'_, [u8]>> {
                let $this = self;
                Some(Cow::from($bytes))
            }
        })*
    };
}

fields! {
    RawBytes<'_> => RawBytes<'static>, bytes: bytes.into_owned(), &bytes[..];
    Password<'_> => Password<'static>, password: password.into_owned(), password.as_bytes();
    Cow<'_, str> => Cow<'static, str>, text: Cow::Owned(text.into_owned()), text.as_bytes();
    StruParam => StruParam, param: param, structure_letter(*param);
    ModeParam => ModeParam, param: param, mode_letter(*param);
    AuthParam => AuthParam, param: param, mechanism_word(*param);
    ProtParam => ProtParam, param: param, protection_letter(*param);
    Opt => Opt, option: option, setting(*option);
    u64 => u64, offset: offset, offset.to_string().into_bytes();
}

impl<F: Field> Field for Option<F> {
    type Owned = Option<F::Owned>;

    fn into_owned_field(self) -> Option<F::Owned> {
        self.map(F::into_owned_field)
    }

    fn value(&self) -> Option<Cow<'_, [u8]>> {
        self.as_ref()?.value()
    }
}

/// Says by which clause of the library's contracts a value doesn't come.
macro_rules! never {
    ($($clause:tt)*) => {
        unreachable!(
            "{}: `Leaves` of unftp_next gives what `given_of` does",
            format_args!($($clause)*)
        )
    };
}

/// Both ways between the words of a line and a parameter that names one of a few choices.
macro_rules! choices {
    ($($reads:ident $writes:ident $param:ident: $($word:literal $choice:pat => $value:expr),*;)*) => {
        $(fn $writes(param: $param) -> &'static [u8] {
            match param {
                $($choice => $word,)*
            }
        }

        #[inline(always)]
        fn $reads<'a, 'kept>(given: Given<'a>, _: Keep<'a, 'kept>) -> $param {
            match given.value() {
                $($word => $value,)*
                _ => never!("the value of {} is one of its words", stringify!($param)),
            }
        })*
    };
}

/// How the fields of a command keep what `unftp_next` has given.
#[derive(Clone, Copy)]
pub(crate) struct Keep<'a, 'kept> {
    bytes: fn(&'a [u8]) -> Cow<'kept, [u8]>,
    text: fn(&'a str) -> Cow<'kept, str>,
}

impl<'a> Keep<'a, 'a> {
    /// They borrow it.
    pub(crate) const BORROWED: Keep<'a, 'a> = Keep { bytes: Cow::Borrowed, text: Cow::Borrowed };
}

#[cfg(feature = "tokio-util")]
impl<'a> Keep<'a, 'static> {
    /// They own a copy.
    pub(crate) const OWNED: Keep<'a, 'static> = Keep {
        bytes: |bytes| Cow::Owned(copied(bytes).into_vec()),
        text: |text| Cow::Owned(copied_text(text).into_string()),
    };
}

// A box is returned in two registers, and a vector or a string in memory.
#[cfg(feature = "tokio-util")]
#[inline(never)]
fn copied(bytes: &[u8]) -> Box<[u8]> {
    bytes.into()
}

#[cfg(feature = "tokio-util")]
#[inline(never)]
fn copied_text(text: &str) -> Box<str> {
    text.into()
}

/// Makes the command of one row of the table.
macro_rules! made {
    ($given:expr, $keep:expr, $variant:ident nothing {}) => {
        Command::$variant
    };
    ($given:expr, $keep:expr, $variant:ident listing { $options:ident, $path:ident }) => {
        Command::$variant { $options: None, $path: optional_text($given, $keep) }
    };
    ($given:expr, $keep:expr, $variant:ident named { $first:ident, $arguments:ident }) => {
        Command::$variant { $first: name($given, $keep), $arguments: text($given, $keep) }
    };
    ($given:expr, $keep:expr, $variant:ident $makes:ident { $field:ident }) => {
        Command::$variant { $field: $makes($given, $keep) }
    };
}

/// Makes the command of what is given.
macro_rules! of_line {
    ($given:expr, $keep:expr,
        $($number:literal $variant:ident $verb:literal $makes:ident { $($field:ident),* })*) => {
        match $given.number() {
            $($number => made!($given, $keep, $variant $makes { $($field),* }),)*
            number => never!("{number} is no `command_number`"),
        }
    };
}

/// The first of two expressions for a row of the table without fields, and else the second.
macro_rules! if_word {
    ({} $word:expr, $other:expr) => {
        $word
    };
    ($fields:tt $word:expr, $other:expr) => {
        $other
    };
}

/// Whether the command of a number has no field.
macro_rules! is_word {
    ($given:expr, $($number:literal $variant:ident $verb:literal $makes:ident $fields:tt)*) => {
        match $given {
            $($number => if_word!($fields true, false),)*
            _ => false,
        }
    };
}

/// The event of a number whose command has no field.
macro_rules! word {
    ($given:expr, $($number:literal $variant:ident $verb:literal $makes:ident $fields:tt)*) => {
        match $given {
            $($number => if_word!($fields Ok(Some(Event::Command(Command::$variant))), Ok(None)),)*
            _ => Ok(None),
        }
    };
}

impl<'kept> Command<'kept> {
    /// Whether the number is all that `unftp_next` gives of the command: it has no field.
    #[inline]
    pub(crate) fn is_word(number: u32) -> bool {
        for_each_command!(is_word!(number))
    }

    /// The event of such a command, and none for another number.
    // all that a decoder returns: so it is a byte of a table, which is written where it is wanted
    #[inline]
    pub(crate) fn word<E>(number: u32) -> Result<Option<Event<'kept>>, E> {
        for_each_command!(word!(number))
    }

    /// The command that `unftp_next` gives by a number, a name and a value.
    // inlined, it is made where it is wanted
    #[inline(always)]
    pub(crate) fn of_line<'a>(given: Given<'a>, keep: Keep<'a, 'kept>) -> Command<'kept> {
        for_each_command!(of_line!(given, keep))
    }
}

// These make fields. They are always inlined, so that what is given is not written to memory again.

#[inline(always)]
fn bytes<'a, 'kept>(given: Given<'a>, keep: Keep<'a, 'kept>) -> RawBytes<'kept> {
    RawBytes::of((keep.bytes)(given.value()))
}

#[inline(always)]
fn password<'a, 'kept>(given: Given<'a>, keep: Keep<'a, 'kept>) -> Password<'kept> {
    Password::of((keep.bytes)(given.value()))
}

/// The value, where there is one: no command has an empty one that it may lack.
#[inline(always)]
fn optional_bytes<'a, 'kept>(given: Given<'a>, keep: Keep<'a, 'kept>) -> Option<RawBytes<'kept>> {
    (!given.value().is_empty()).then(|| bytes(given, keep))
}

#[inline(always)]
fn optional_text<'a, 'kept>(given: Given<'a>, keep: Keep<'a, 'kept>) -> Option<Cow<'kept, str>> {
    (!given.value().is_empty()).then(|| text(given, keep))
}

#[inline(always)]
fn text<'a, 'kept>(given: Given<'a>, keep: Keep<'a, 'kept>) -> Cow<'kept, str> {
    (keep.text)(given.value_text())
}

#[inline(always)]
fn name<'a, 'kept>(given: Given<'a>, keep: Keep<'a, 'kept>) -> Cow<'kept, str> {
    (keep.text)(given.name_text())
}

choices! {
    structure structure_letter StruParam:
        b"F" StruParam::File => StruParam::File,
        b"R" StruParam::Record => StruParam::Record,
        b"P" StruParam::Page => StruParam::Page;
    mode mode_letter ModeParam:
        b"S" ModeParam::Stream => ModeParam::Stream,
        b"B" ModeParam::Block => ModeParam::Block,
        b"C" ModeParam::Compressed => ModeParam::Compressed;
    option setting Opt:
        b"UTF8 ON" Opt::Utf8 { on: true } => Opt::Utf8 { on: true },
        b"UTF8 OFF" Opt::Utf8 { on: false } => Opt::Utf8 { on: false };
    mechanism mechanism_word AuthParam:
        b"SSL" AuthParam::Ssl => AuthParam::Ssl,
        b"TLS" AuthParam::Tls => AuthParam::Tls;
    protection protection_letter ProtParam:
        b"C" ProtParam::Clear => ProtParam::Clear,
        b"S" ProtParam::Safe => ProtParam::Safe,
        b"E" ProtParam::Confidential => ProtParam::Confidential,
        b"P" ProtParam::Private => ProtParam::Private;
}

#[inline(always)]
fn offset<'a, 'kept>(given: Given<'a>, _: Keep<'a, 'kept>) -> u64 {
    match given.value_text().parse() {
        Ok(offset) => offset,
        Err(_) => never!("the value of REST is `decimal` of a number below 2^64"),
    }
}
