//! Commands, refusals and addresses as the vector files write them.
use std::borrow::Cow;
use std::net::{IpAddr, SocketAddr, SocketAddrV4};
use unftp_control::{
    extended, extended_port, find_extended_port, find_host_port, host_port, read_extended,
    read_host_port, AddressError, AuthParam, Command, Error, ModeParam, Opt, Password, ProtParam,
    RawBytes, Refusal, StruParam,
};

/// The bytes between quotes, in ASCII: what is printable as it is, and all else escaped.
pub fn quoted(bytes: &[u8]) -> String {
    let escaped: String = bytes.iter().map(|&byte| escaped(byte)).collect();
    format!("\"{escaped}\"")
}

fn escaped(byte: u8) -> String {
    match byte {
        b'\r' => "\\r".to_string(),
        b'\n' => "\\n".to_string(),
        b'\0' => "\\0".to_string(),
        b'\\' => "\\\\".to_string(),
        b' '..=b'~' => char::from(byte).to_string(),
        _ => format!("\\x{byte:02x}"),
    }
}

/// What is answered of the line of an exchange.
pub fn shown_exchange(line: Result<String, Error>) -> Result<String, Error> {
    Ok(match line {
        Ok(line) => quoted(line.as_bytes()),
        Err(Error::NotPrintable) => "invalid-argument".to_string(),
        Err(Error::IncompleteReply) => "incomplete".to_string(),
        Err(Error::MalformedReply) => "malformed".to_string(),
        Err(error) => return Err(error),
    })
}

/// A field as the vector files write it.
trait Shown {
    fn shown(&self) -> String;
}

impl<T: Shown> Shown for Option<T> {
    fn shown(&self) -> String {
        self.as_ref().map_or("None".to_string(), T::shown)
    }
}

/// How a field of each type is written.
macro_rules! shown_as {
    ($($type:ty, $field:ident: $shown:expr;)*) => {
        $(impl Shown for $type {
            fn shown(&self) -> String {
                let $field = self;
                $shown
            }
        })*
    };
}

shown_as! {
    RawBytes<'_>, bytes: quoted(bytes);
    Password<'_>, password: quoted(password.as_bytes());
    Cow<'_, str>, text: quoted(text.as_bytes());
    StruParam, structure: format!("{structure:?}");
    ModeParam, mode: format!("{mode:?}");
    AuthParam, mechanism: format!("{mechanism:?}");
    ProtParam, protection: format!("{protection:?}");
    u64, offset: offset.to_string();
    Opt, option: match option {
        Opt::Utf8 { on } => format!("Utf8 on={on}"),
        _ => "another option".to_string(),
    };
}

/// A variant's name and its fields.
macro_rules! shown {
    ($variant:literal $(, $field:ident)*) => {
        [$variant.to_string() $(, format!(concat!(stringify!($field), "={}"), $field.shown()))*]
            .join(" ")
    };
}

/// The command's variant and its fields.
pub fn shown(command: &Command) -> String {
    use Command::*;
    match command {
        // arms: made by tools/gate/verbs of FtpCommand.antt
        User { username } => shown!("User", username),
        Pass { password } => shown!("Pass", password),
        Acct { account } => shown!("Acct", account),
        Syst => shown!("Syst"),
        Stat { path } => shown!("Stat", path),
        Type => shown!("TypeCode"),
        Stru { structure } => shown!("Stru", structure),
        Mode { mode } => shown!("Mode", mode),
        Help => shown!("Help"),
        Noop => shown!("Noop"),
        Pasv => shown!("Pasv"),
        Epsv => shown!("Epsv"),
        Port { addr } => shown!("Port", addr),
        Retr { path } => shown!("Retr", path),
        Stor { path } => shown!("Stor", path),
        Appe { path } => shown!("Appe", path),
        List { options, path } => shown!("List", options, path),
        Nlst { path } => shown!("Nlst", path),
        Mlst { path } => shown!("Mlst", path),
        Mlsd { path } => shown!("Mlsd", path),
        Feat => shown!("Feat"),
        Pwd => shown!("Pwd"),
        Cwd { path } => shown!("Cwd", path),
        Cdup => shown!("Cdup"),
        Opts { option } => shown!("Opts", option),
        Dele { path } => shown!("Dele", path),
        Rmd { path } => shown!("Rmd", path),
        Quit => shown!("Quit"),
        Mkd { path } => shown!("Mkd", path),
        Allo => shown!("Allo"),
        Abor => shown!("Abor"),
        Stou => shown!("Stou"),
        Rnfr { file } => shown!("Rnfr", file),
        Rnto { file } => shown!("Rnto", file),
        Auth { protocol } => shown!("Auth", protocol),
        Ccc => shown!("Ccc"),
        Pbsz => shown!("Pbsz"),
        Prot { param } => shown!("Prot", param),
        Size { file } => shown!("Size", file),
        Rest { offset } => shown!("Rest", offset),
        Mdtm { file } => shown!("Mdtm", file),
        Md5 { file } => shown!("Md5", file),
        Site { command, arguments } => shown!("Site", command, arguments),
        Other { command_name, arguments } => shown!("Other", command_name, arguments),
        // end of arms
        _ => "another command".to_string(),
    }
}

/// The kind of the parser's error.
pub fn shown_refusal(refusal: Refusal) -> &'static str {
    match refusal {
        Refusal::InvalidCommand => "InvalidCommand",
        Refusal::InvalidUtf8 => "InvalidUtf8",
        Refusal::InvalidEol => "InvalidEol",
        Refusal::LineTooLong => "LineTooLong",
        _ => "another refusal",
    }
}

/// The kind of the control channel's error, and that of the parser's, where the parser refuses.
pub fn shown_refusals(refusal: Refusal) -> &'static str {
    match refusal {
        Refusal::InvalidCommand => "InvalidCommand InvalidCommand",
        Refusal::InvalidUtf8 => "Utf8Error InvalidUtf8",
        Refusal::InvalidEol => "InvalidCommand InvalidEol",
        Refusal::LineTooLong => "LineTooLong",
        _ => "another refusal",
    }
}

/// What a text of this form is read as; `None` where there is no such form.
pub fn shown_read(form: &str, text: &[u8]) -> Option<String> {
    let address = match form {
        "PORT" => read_host_port(text).map(SocketAddr::V4).ok_or(AddressError::Malformed),
        "EPRT" => read_extended(text),
        "227" => find_host_port(text).map(SocketAddr::V4).ok_or(AddressError::Malformed),
        "229" => return Some(shown_port(find_extended_port(text))),
        _ => return None,
    };
    Some(match address {
        Ok(address) => format!("ip={} port={}", shown_ip(address.ip()), address.port()),
        Err(AddressError::Malformed) => "none".to_string(),
        Err(AddressError::UnknownProtocol) => "unknown-protocol".to_string(),
    })
}

fn shown_port(port: Option<u16>) -> String {
    port.map_or("none".to_string(), |port| format!("port={port}"))
}

/// A host with all of its numbers.
fn shown_ip(ip: IpAddr) -> String {
    match ip {
        IpAddr::V4(ip) => ip.octets().map(|octet| octet.to_string()).join("."),
        IpAddr::V6(ip) => ip.segments().map(|segment| format!("{segment:x}")).join(":"),
    }
}

/// The text of this form for a host and a port; `None` where it has no host of this kind.
pub fn written_address(form: &str, host: &str, port: u16) -> Option<Result<String, Error>> {
    match (form, host.parse()) {
        ("PORT" | "227", Ok(IpAddr::V4(ip))) => Some(host_port(SocketAddrV4::new(ip, port))),
        ("EPRT", Ok(ip)) => Some(extended(SocketAddr::new(ip, port))),
        ("229", _) => Some(extended_port(port)),
        _ => None,
    }
}
