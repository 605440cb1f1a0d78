use crate::area::written;
use crate::error::Error;
use crate::ffi;
use std::fmt::{self, Display, Formatter};
use std::net::{IpAddr, Ipv4Addr, SocketAddr, SocketAddrV4};

/// How many bytes the longest address has, that of EPRT.
const LONGEST: usize = 49;

/// Why a value of EPRT is no address.
#[derive(Clone, Copy, Debug, PartialEq, Eq, Hash)]
pub enum AddressError {
    /// It is not written as such a value is: a server answers 501.
    Malformed,
    /// Its protocol is a number other than 1 and 2: a server answers 522 with those that it has.
    UnknownProtocol,
}

impl Display for AddressError {
    fn fmt(&self, f: &mut Formatter<'_>) -> fmt::Result {
        f.write_str(match self {
            AddressError::Malformed => "malformed address",
            AddressError::UnknownProtocol => "unknown network protocol",
        })
    }
}

impl std::error::Error for AddressError {}

/// The IPv4 address that an IPv6 address maps, as a listener on `[::]` has for a client over IPv4;
/// any other address as it is. So the ends of two connections are compared.
///
/// ```
/// use unftp_control::unmapped;
///
/// assert_eq!(unmapped("::ffff:192.0.2.7".parse()?), "192.0.2.7".parse::<std::net::IpAddr>()?);
/// assert_eq!(unmapped("::1".parse()?), "::1".parse::<std::net::IpAddr>()?);
/// # Ok::<(), std::net::AddrParseError>(())
/// ```
pub fn unmapped(address: IpAddr) -> IpAddr {
    match address {
        IpAddr::V6(mapped) => mapped.to_ipv4_mapped().map_or(address, IpAddr::V4),
        IpAddr::V4(_) => address,
    }
}

/// The address that a value of PORT spells, `h1,h2,h3,h4,p1,p2` (RFC 959, section 4.1.2); `None`
/// where it spells none, which a server answers by 501. It is six numbers with commas between them,
/// each of one to three digits and below 256, and nothing else. Leading zeros are decimal.
///
/// Whose address it is, is the caller's to decide. A server that connects to whatever PORT or EPRT
/// names, and a client that connects to whatever a 227 names, can be made to reach a third host (RFC
/// 2577): they compare the host with the other end of the control connection, which on a socket of
/// IPv6 may be an IPv4-mapped address. Port 0 is read too, where nothing can listen.
///
/// ```
/// use std::net::IpAddr;
/// use unftp_control::{read_host_port, ReplyCode};
///
/// /// The code of the reply to PORT.
/// fn answer(addr: &str, client: IpAddr) -> ReplyCode {
///     match read_host_port(addr.as_bytes()) {
///         None => ReplyCode::PARAMETER_SYNTAX_ERROR,
///         // a lower port may be that of a service
///         Some(to) if *to.ip() == client && to.port() >= 1024 => ReplyCode::COMMAND_OKAY,
///         Some(_) => ReplyCode::COMMAND_NOT_IMPLEMENTED_FOR_PARAMETER,
///     }
/// }
///
/// let client = IpAddr::from([127, 0, 0, 1]);
/// assert_eq!(answer("127,0,0,1,195,80", client).get(), 200);
/// assert_eq!(answer("192,0,2,7,195,80", client).get(), 504);
/// assert_eq!(answer("127,0,0,1,195", client).get(), 501);
/// ```
pub fn read_host_port(value: &[u8]) -> Option<SocketAddrV4> {
    read_v4(ffi::ADDRESS_PORT, value)
}

/// The address in the text of a reply 227, with or without brackets and other text around it; `None`
/// where there is none. Of the text's words of digits and commas it is the first that
/// [`read_host_port`] reads (RFC 1123, section 4.1.2.6). Whose address it is, is the caller's to
/// decide, as there: most clients take only its port, and connect to the server's own address.
///
/// ```
/// use unftp_control::find_host_port;
///
/// let address = "127.0.0.1:50000".parse().ok();
/// assert_eq!(find_host_port(b"Entering Passive Mode (127,0,0,1,195,80)."), address);
/// assert_eq!(find_host_port(b"=127,0,0,1,195,80"), address);
/// assert_eq!(find_host_port(b"Entering Passive Mode"), None);
/// ```
pub fn find_host_port(text: &[u8]) -> Option<SocketAddrV4> {
    read_v4(ffi::ADDRESS_227, text)
}

/// The address that a value of EPRT spells, such as `|1|132.235.1.2|6275|` or `|2|::1|6275|` (RFC
/// 2428, section 2): a delimiter, the protocol, which is 1 for IPv4 and 2 for IPv6, the delimiter,
/// the host as std's `Ipv4Addr` or `Ipv6Addr` parses it, the delimiter, the port of one to five
/// digits, the delimiter, and nothing else. The delimiter is one of `!` to `~` that is no hex digit,
/// colon, dot or closing bracket. Whose address it is, is the caller's to decide, as for
/// [`read_host_port`].
///
/// ```
/// use unftp_control::{read_extended, AddressError};
///
/// assert_eq!(read_extended(b"|2|::1|6275|"), Ok("[::1]:6275".parse()?));
/// assert_eq!(read_extended(b"|3|::1|6275|"), Err(AddressError::UnknownProtocol));
/// assert_eq!(read_extended(b"|1|::1|6275|"), Err(AddressError::Malformed));
/// # Ok::<(), std::net::AddrParseError>(())
/// ```
///
/// # Errors
///
/// [`AddressError::UnknownProtocol`] where the protocol is another number of 16 bits, whatever the
/// host and the port are; [`AddressError::Malformed`] where the value is anything else.
pub fn read_extended(value: &[u8]) -> Result<SocketAddr, AddressError> {
    let (ip, ip_len, port) = read::<16>(ffi::ADDRESS_EPRT, value)?;
    let host = match ip {
        [a, b, c, d, ..] if ip_len == 4 => IpAddr::from([a, b, c, d]),
        ip => IpAddr::from(ip),
    };
    Ok(SocketAddr::new(host, port))
}

/// The port in the text of a reply 229 (RFC 2428, section 3); `None` where there is none. After the
/// text's first opening bracket come a delimiter three times, one to five digits that spell the port,
/// the delimiter and a closing bracket. The host is the other end of the control connection. Port 0
/// is read too, where nothing can listen.
///
/// ```
/// use unftp_control::find_extended_port;
///
/// assert_eq!(find_extended_port(b"Entering Extended Passive Mode (|||6446|)"), Some(6446));
/// assert_eq!(find_extended_port(b"Entering Extended Passive Mode"), None);
/// ```
pub fn find_extended_port(text: &[u8]) -> Option<u16> {
    let (_, _, port) = read::<0>(ffi::ADDRESS_229, text).ok()?;
    Some(port)
}

/// An address as PORT has it, and in brackets a reply 227: `127,0,0,1,195,80` (RFC 959, section
/// 4.1.2). [`Reply::passive`](crate::Reply::passive) is that reply.
///
/// ```
/// use unftp_control::{host_port, Command};
///
/// let addr = host_port("127.0.0.1:50000".parse()?)?;
/// assert_eq!(addr, "127,0,0,1,195,80");
/// let command = Command::Port { addr: addr.into() };
/// # Ok::<(), Box<dyn std::error::Error>>(())
/// ```
///
/// # Errors
///
/// [`Error::OutOfMemory`].
pub fn host_port(address: SocketAddrV4) -> Result<String, Error> {
    text(ffi::ADDRESS_PORT, &address.ip().octets(), address.port())
}

/// An address as EPRT has it: `|1|132.235.1.2|6275|` or `|2|::1|6275|` (RFC 2428, section 2). The
/// flow information and the scope of an IPv6 address are left out.
///
/// ```
/// use unftp_control::extended;
///
/// assert_eq!(extended("[::1]:6275".parse()?)?, "|2|::1|6275|");
/// # Ok::<(), Box<dyn std::error::Error>>(())
/// ```
///
/// # Errors
///
/// [`Error::OutOfMemory`].
pub fn extended(address: SocketAddr) -> Result<String, Error> {
    match address.ip() {
        IpAddr::V4(ip) => text(ffi::ADDRESS_EPRT, &ip.octets(), address.port()),
        IpAddr::V6(ip) => text(ffi::ADDRESS_EPRT, &ip.octets(), address.port()),
    }
}

/// A port as a reply 229 has it, in brackets: `(|||6446|)` (RFC 2428, section 3).
/// [`Reply::extended_passive`](crate::Reply::extended_passive) is that reply.
///
/// ```
/// use unftp_control::extended_port;
///
/// assert_eq!(extended_port(6446)?, "(|||6446|)");
/// # Ok::<(), unftp_control::Error>(())
/// ```
///
/// # Errors
///
/// [`Error::OutOfMemory`].
pub fn extended_port(port: u16) -> Result<String, Error> {
    text(ffi::ADDRESS_229, &[], port)
}

/// The address of IPv4 that a text of this form has.
fn read_v4(form: u32, text: &[u8]) -> Option<SocketAddrV4> {
    let (ip, _, port) = read::<4>(form, text).ok()?;
    Some(SocketAddrV4::new(Ipv4Addr::from(ip), port))
}

/// What a text of this form has: the host's bytes, at the start of as many as it has at most; how
/// many they are; and the port.
fn read<const MOST: usize>(
    form: u32,
    text: &[u8],
) -> Result<([u8; MOST], usize, u16), AddressError> {
    let mut ip = [0; MOST];
    let (status, address) = ffi::read_address(form, text, &mut ip);
    match (status, u16::try_from(address.port)) {
        (ffi::DONE, Ok(port)) => Ok((ip, address.ip_len, port)),
        (ffi::NO_ADDRESS, _) => Err(AddressError::Malformed),
        (ffi::UNKNOWN_PROTOCOL, _) => Err(AddressError::UnknownProtocol),
        _ => unreachable!("`IsRead` has no host of more than {MOST} bytes, nor such a port"),
    }
}

/// The text of this form for an address.
fn text(form: u32, ip: &[u8], port: u16) -> Result<String, Error> {
    let bytes = written(LONGEST, |out| ffi::write_address(form, ip, port, out))?;
    Ok(String::from_utf8(bytes)
        .unwrap_or_else(|_| unreachable!("`IsText`: each byte of an address is printable ASCII")))
}

#[cfg(test)]
mod tests {
    use super::*;
    use std::net::{Ipv6Addr, SocketAddrV6};

    #[test]
    fn a_scope_is_left_out() {
        let address = SocketAddrV6::new(Ipv6Addr::LOCALHOST, 6275, 3, 2);
        assert_eq!(extended(address.into()).as_deref(), Ok("|2|::1|6275|"));
    }

    #[test]
    fn the_longest_address_has_its_room() {
        let address = SocketAddr::from(([0xffff; 8], 65535));
        assert_eq!(extended(address).map(|text| text.len()), Ok(LONGEST));
    }

    #[test]
    fn errors_have_texts() {
        assert_eq!(AddressError::Malformed.to_string(), "malformed address");
        assert_eq!(AddressError::UnknownProtocol.to_string(), "unknown network protocol");
    }
}
