use std::fmt::{self, Display, Formatter};

/// The code of a reply that a server sends: any number from 100 to 599. Those that have a name here
/// are of RFC 959, section 4.2.2, where no other RFC is named.
///
/// ```
/// use unftp_control::ReplyCode;
///
/// assert_eq!(ReplyCode::new(226), Some(ReplyCode::CLOSING_DATA_CONNECTION));
/// assert_eq!(ReplyCode::new(600), None);
/// ```
#[derive(Clone, Copy, Debug, PartialEq, Eq, PartialOrd, Ord, Hash)]
pub struct ReplyCode(u16);

impl ReplyCode {
    /// The code of this number; `None` where it is not from 100 to 599.
    pub const fn new(number: u16) -> Option<ReplyCode> {
        if number >= 100 && number <= 599 {
            Some(ReplyCode(number))
        } else {
            None
        }
    }

    /// Its number.
    pub const fn get(self) -> u16 {
        self.0
    }

    /// Whether it is from 200 to 399: the command is done, or goes on (RFC 959, section 4.2.1).
    pub const fn is_positive(self) -> bool {
        self.0 >= 200 && self.0 <= 399
    }
}

impl TryFrom<u16> for ReplyCode {
    type Error = UnknownCode;

    fn try_from(number: u16) -> Result<ReplyCode, UnknownCode> {
        ReplyCode::new(number).ok_or(UnknownCode)
    }
}

impl From<ReplyCode> for u16 {
    fn from(code: ReplyCode) -> u16 {
        code.0
    }
}

impl Display for ReplyCode {
    fn fmt(&self, f: &mut Formatter<'_>) -> fmt::Result {
        self.0.fmt(f)
    }
}

/// The number is the code of no reply: it is not from 100 to 599.
#[derive(Clone, Copy, Debug, PartialEq, Eq)]
pub struct UnknownCode;

impl Display for UnknownCode {
    fn fmt(&self, f: &mut Formatter<'_>) -> fmt::Result {
        f.write_str("no reply has this code")
    }
}

impl std::error::Error for UnknownCode {}

/// Declares the codes that have a name.
macro_rules! codes {
    ($($name:ident = $number:literal $doc:literal)*) => {
        impl ReplyCode {
            $(#[doc = concat!(stringify!($number), ": ", $doc)]
            pub const $name: ReplyCode = ReplyCode($number);)*
        }
    };
}

codes! {
    RESTART_MARKER = 110 "a restart marker."
    IN_N_MINUTES = 120 "the service is ready in some minutes."
    CONNECTION_ALREADY_OPEN = 125 "the data connection is open already, and the transfer begins."
    FILE_STATUS_OKAY = 150 "the file is there, and the data connection is about to be opened."
    COMMAND_OKAY = 200 "the command is done."
    COMMAND_OKAY_NOT_IMPLEMENTED = 202 "the command is not implemented, and not needed here."
    SYSTEM_STATUS = 211 "the system's status, or help on it."
    DIRECTORY_STATUS = 212 "a directory's status."
    FILE_STATUS = 213 "a file's status."
    HELP_MESSAGE = 214 "help for people."
    SYSTEM_TYPE = 215 "the name of the system."
    SERVICE_READY = 220 "the service is ready for a new user."
    CLOSING_CONTROL_CONNECTION = 221 "the control connection is being closed."
    DATA_CONNECTION_OPEN = 225 "the data connection is open, and no transfer is under way."
    CLOSING_DATA_CONNECTION = 226 "the data connection is being closed; the file action is done."
    ENTERING_PASSIVE_MODE = 227 "the server listens for the data connection."
    ENTERING_LONG_PASSIVE_MODE = 228 "the server listens at a long address (RFC 1639)."
    ENTERING_EXTENDED_PASSIVE_MODE = 229 "the server listens, in extended passive mode (RFC 2428)."
    USER_LOGGED_IN = 230 "the user is logged in."
    USER_LOGGED_IN_VIA_CERT = 232 "the user is logged in by the security data (RFC 2228)."
    AUTH_OKAY_NO_DATA_NEEDED = 234 "the security exchange is done (RFC 2228)."
    SECURITY_DATA_EXCHANGE_COMPLETE = 235 "the exchange of security data is complete (RFC 2228)."
    FILE_ACTION_OKAY = 250 "the file action is done."
    DIR_CREATED = 257 "the path that was made, or that is the working directory."
    NEED_PASSWORD = 331 "the user name is taken, and a password is needed."
    NEED_ACCOUNT = 332 "an account is needed to log in."
    AUTH_OKAY_DATA_NEEDED = 334 "the security mechanism is taken, and needs data (RFC 2228)."
    MORE_SECURITY_DATA_NEEDED = 335 "the security data is taken, and more is needed (RFC 2228)."
    NEED_PASSWORD_FOR_CHALLENGE = 336 "a password that answers the challenge is needed (RFC 2228)."
    FILE_ACTION_PENDING = 350 "the file action needs more."
    SERVICE_NOT_AVAILABLE = 421 "the service is not available, and the connection is being closed."
    CANT_OPEN_DATA_CONNECTION = 425 "the data connection can't be opened."
    CONNECTION_CLOSED = 426 "the connection was closed, and the transfer ended early."
    SECURITY_RESOURCE_UNAVAILABLE = 431 "what the security mechanism needs is missing (RFC 2228)."
    TRANSIENT_FILE_ERROR = 450 "the file is not available for now."
    LOCAL_ERROR = 451 "the action ended early by a fault of the server."
    OUT_OF_SPACE = 452 "there is no room for the file."
    COMMAND_SYNTAX_ERROR = 500 "the command is ill formed or not known."
    PARAMETER_SYNTAX_ERROR = 501 "a parameter is ill formed."
    COMMAND_NOT_IMPLEMENTED = 502 "the command is not implemented."
    BAD_COMMAND_SEQUENCE = 503 "another command has to come before."
    COMMAND_NOT_IMPLEMENTED_FOR_PARAMETER = 504 "the command doesn't take this parameter."
    ADDRESS_FAMILY_NOT_SUPPORTED = 521 "the address family is not supported (RFC 1639)."
    NETWORK_PROTOCOL_NOT_SUPPORTED = 522 "the network protocol is not supported (RFC 2428)."
    NOT_LOGGED_IN = 530 "nobody is logged in."
    NEED_ACCOUNT_TO_STORE = 532 "an account is needed to store files."
    RESP533 = 533 "the command's protection level is denied (RFC 2228)."
    FTPS_REQUIRED = 534 "the policy asks for TLS (RFC 2228)."
    FAILED_SECURITY_CHECK = 535 "the security data failed a check (RFC 2228)."
    PROT_LEVEL_NOT_SUPPORTED = 536 "the mechanism doesn't have the level of PROT (RFC 2228)."
    COMMAND_PROTECTION_NOT_SUPPORTED = 537 "the mechanism doesn't have this level (RFC 2228)."
    FILE_ERROR = 550 "the file is not available."
    PAGE_TYPE_UNKNOWN = 551 "the page type is not known."
    EXCEEDED_STORAGE_ALLOCATION = 552 "the file is larger than was allocated."
    BAD_FILE_NAME = 553 "the file name is not allowed."
}
