use crate::address::{read_extended, read_host_port, unmapped, AddressError};
use crate::code::ReplyCode;
use crate::command::Command;
use crate::error::Error;
use crate::event::Event;
use crate::line_codec::OwnedLine;
use crate::reply::Reply;
use std::collections::hash_map::RandomState;
use std::fmt::{self, Debug, Formatter};
use std::future::Future;
use std::hash::{BuildHasher, Hasher};
use std::io::{self, ErrorKind};
use std::mem;
use std::net::{self, IpAddr, Ipv4Addr, SocketAddr, SocketAddrV4};
use std::ops::RangeInclusive;
use std::os::fd::AsRawFd;
use std::sync::Arc;
use std::time::Duration;
use tokio::io::unix::AsyncFd;
use tokio::io::Interest;
use tokio::net::{TcpSocket, TcpStream};
use tokio::time::timeout;

/// The first port that is no system's own. A data connection to a lower one would reach a service
/// (RFC 2577, section 3).
const FIRST_PORT: u16 = 1024;

/// A server's data port (RFC 959, section 3.2; RFC 2428): it makes the replies to PASV, EPSV, PORT
/// and EPRT, and opens the data connection that they prepare.
///
/// A data connection is between the addresses of the control connection. One from another address
/// is closed, and a PORT or EPRT with another address or a port below 1024 is refused, so that
/// nothing is sent to others or taken from them (RFC 2577). An IPv4-mapped address of IPv6 is that
/// of IPv4, and a link-local address keeps its interface.
///
/// | reply | to | where |
/// |---|---|---|
/// | 227 | PASV | the server listens |
/// | 229 | EPSV | the server listens |
/// | 200 | PORT, EPRT | the address is the client's; the server connects to it |
/// | 200 | EPSV ALL | from now on only EPSV is taken (RFC 2428, section 4) |
/// | 425 | PASV | the control connection is over IPv6 |
/// | 451 | PASV, EPSV | out of memory |
/// | 501 | PORT, EPRT, EPSV | the parameter is malformed, or the port is 0 |
/// | 503 | PASV, PORT, EPRT | EPSV ALL came before |
/// | 504 | PORT, EPRT | the address is not the client's, or its port is below 1024 |
/// | 522 | EPRT, EPSV | it is another network protocol than that of the control connection |
///
/// A server asks its [`Login`](crate::Login) first. Then [`answer`](DataPort::answer) makes the
/// reply, and [`open`](DataPort::open) opens the connection, once the server has sent 150:
///
/// ```
/// use std::time::Duration;
/// use tokio::io::AsyncWriteExt;
/// use tokio::net::TcpStream;
/// use unftp_control::{DataPort, OwnedLine, Reply, ReplyCode};
///
/// // the reply to PASV, EPSV, PORT and EPRT.
/// fn prepare(data_port: &mut DataPort, line: &OwnedLine) -> Reply {
///     let unknown = || Reply::new(ReplyCode::COMMAND_NOT_IMPLEMENTED, "Not implemented");
///     data_port.answer(line).unwrap_or_else(unknown)
/// }
///
/// // sends a file
/// async fn send(data_port: &mut DataPort, file: &[u8]) -> std::io::Result<()> {
///     let mut data = data_port.open(Duration::from_secs(30)).await?;
///     data.write_all(file).await?;
///     data.shutdown().await
/// }
///
/// fn of(control: &TcpStream) -> std::io::Result<DataPort> {
///     Ok(DataPort::new(control.peer_addr()?, control.local_addr()?).with_ports(50000..=50999))
/// }
/// ```
#[derive(Debug)]
pub struct DataPort {
    ends: Ends,
    /// The ports to listen on; any where there is no range.
    ports: Option<RangeInclusive<u16>>,
    /// The address that a 227 has in place of the server's own.
    public_address: Option<Ipv4Addr>,
    /// Whether EPSV ALL came.
    only_epsv: bool,
    next: Next,
}

/// Where the next data connection comes from.
#[derive(Debug, Default)]
enum Next {
    /// No command has said.
    #[default]
    Unset,
    /// The server listens. No call of the listener waits.
    Passive(net::TcpListener),
    /// The client listens on this port.
    Active(u16),
}

impl DataPort {
    /// That of a control connection between these addresses. Nothing is prepared.
    pub fn new(client: SocketAddr, server: SocketAddr) -> DataPort {
        DataPort {
            ends: Ends::new(client, server),
            ports: None,
            public_address: None,
            only_epsv: false,
            next: Next::Unset,
        }
    }

    /// Listens only on these ports, as a firewall may ask for, and not on any that the system picks.
    /// Each search for a free one begins at random, so that others can't tell the next.
    pub fn with_ports(self, ports: RangeInclusive<u16>) -> DataPort {
        DataPort { ports: Some(ports), ..self }
    }

    /// Names this address in a 227, for a server behind a translation of addresses.
    pub fn with_public_address(self, address: Ipv4Addr) -> DataPort {
        DataPort { public_address: Some(address), ..self }
    }

    /// Calls this with the address of each data connection that is closed since it is not the
    /// client's, as for a log.
    pub fn on_foreign_peer(
        mut self,
        call: impl Fn(SocketAddr) + Send + Sync + 'static,
    ) -> DataPort {
        self.ends.on_foreign_peer = OnForeignPeer(Arc::new(call));
        self
    }

    /// The client's address: that of IPv4 where it is IPv4-mapped.
    pub fn client(&self) -> IpAddr {
        self.ends.client
    }

    /// Whether a command has prepared a data connection that is not opened yet. Without one a
    /// server answers a transfer by 425.
    pub fn is_prepared(&self) -> bool {
        !matches!(self.next, Next::Unset)
    }

    /// The reply to PASV, EPSV, PORT or EPRT; `None` for any other line. Where the server can't
    /// listen, that is 425, and nothing is prepared.
    pub fn answer(&mut self, line: &OwnedLine) -> Option<Reply> {
        let Event::Command(command) = &line.event else { return None };
        let answered = match command {
            Command::Pasv => self.passive(),
            Command::Epsv => match line.parameter() {
                Ok(parameter) => self.extended_passive(&parameter),
                Err(error) => Ok(of_parameter(error)),
            },
            Command::Port { addr } => Ok(self.port(addr)),
            Command::Other { command_name, arguments } if command_name == "EPRT" => {
                Ok(self.extended_port(arguments))
            }
            _ => return None,
        };
        Some(answered.unwrap_or_else(|_| {
            Reply::new(ReplyCode::CANT_OPEN_DATA_CONNECTION, "No port is free")
        }))
    }

    /// The reply to PASV (RFC 959, section 4.1.2), for which the server listens: 227, 425, 451 or
    /// 503.
    ///
    /// # Errors
    ///
    /// Those of [`listen`](DataPort::listen).
    pub fn passive(&mut self) -> io::Result<Reply> {
        if let Some(refusal) = self.after_epsv_all() {
            return Ok(refusal);
        }
        let IpAddr::V4(own) = self.ends.server else {
            let text = "Use EPSV over IPv6";
            return Ok(Reply::new(ReplyCode::CANT_OPEN_DATA_CONNECTION, text));
        };
        let port = self.listen()?.port();
        let address = SocketAddrV4::new(self.public_address.unwrap_or(own), port);
        Ok(Reply::passive(address).unwrap_or_else(|error| self.unlisten(error)))
    }

    /// The reply to EPSV with this parameter, for which the server listens unless it is `ALL` (RFC
    /// 2428, sections 3 and 4): 229, 200, 451, 501 or 522. No [`Command`] has the parameter, and
    /// [`OwnedLine::parameter`] and [`Line::parameter`](crate::Line::parameter) return it.
    ///
    /// # Errors
    ///
    /// Those of [`listen`](DataPort::listen).
    pub fn extended_passive(&mut self, parameter: &[u8]) -> io::Result<Reply> {
        let own = self.ends.protocol();
        match parameter {
            all if all.eq_ignore_ascii_case(b"ALL") => {
                self.only_epsv = true;
                return Ok(Reply::new(ReplyCode::COMMAND_OKAY, "Only EPSV from now on"));
            }
            protocol if protocol.is_empty() || protocol == own.as_bytes() => {}
            digits if digits.iter().all(u8::is_ascii_digit) => return Ok(self.other_protocol()),
            _ => return Ok(syntax_error("No network protocol")),
        }
        let port = self.listen()?.port();
        Ok(Reply::extended_passive(port).unwrap_or_else(|error| self.unlisten(error)))
    }

    /// The reply to PORT with this parameter (RFC 959, section 4.1.2): 200, 501, 503 or 504. At
    /// another than 200 what was prepared stays so.
    pub fn port(&mut self, parameter: &str) -> Reply {
        match read_host_port(parameter.as_bytes()) {
            Some(address) if address.port() != 0 => self.active(address.into()),
            _ => syntax_error("No address"),
        }
    }

    /// The reply to EPRT with this parameter (RFC 2428, section 2): 200, 501, 503, 504 or 522. At
    /// another than 200 what was prepared stays so. EPRT is a [`Command::Other`].
    pub fn extended_port(&mut self, parameter: &str) -> Reply {
        match read_extended(parameter.as_bytes()) {
            Ok(address) if address.port() == 0 => syntax_error("No address"),
            Ok(address) if address.is_ipv4() == self.ends.server.is_ipv4() => self.active(address),
            Ok(_) | Err(AddressError::UnknownProtocol) => self.other_protocol(),
            Err(AddressError::Malformed) => syntax_error("No address"),
        }
    }

    /// Listens for the data connection at the server's own address, which is returned with the
    /// port: for a server that makes its own replies. What was prepared before is closed first.
    ///
    /// # Errors
    ///
    /// Where no port is free, that is [`ErrorKind::AddrInUse`]. All others are the system's, as
    /// where no descriptor is left. Nothing is prepared then.
    pub fn listen(&mut self) -> io::Result<SocketAddr> {
        // the port of a listener that was there is free again
        self.close();
        let listener = self.bind()?;
        listener.set_nonblocking(true)?;
        let own = listener.local_addr()?;
        self.next = Next::Passive(listener);
        Ok(own)
    }

    /// Lets the data connection be one to this port of the client: for a server that makes its own
    /// replies.
    pub fn connect_to(&mut self, port: u16) {
        self.next = Next::Active(port);
    }

    /// Opens the data connection that the last command has prepared, within a time. Nothing is
    /// prepared from then on. Connections from other addresses are closed, and the client's own is
    /// waited for. The future borrows nothing of this.
    ///
    /// # Errors
    ///
    /// [`ErrorKind::NotConnected`] where nothing is prepared, and [`ErrorKind::TimedOut`] after
    /// that time. All others are the system's, as where the client refuses the connection. A server
    /// answers each by 425.
    pub fn open(&mut self, limit: Duration) -> impl Future<Output = io::Result<TcpStream>> {
        let opened = self.open_std(limit);
        async move { TcpStream::from_std(opened.await?) }
    }

    /// As [`open`](DataPort::open), of a stream that no runtime knows, as for a thread of its own.
    /// None of its calls waits, until
    /// [`set_nonblocking`](net::TcpStream::set_nonblocking) changes that.
    ///
    /// # Errors
    ///
    /// Those of [`open`](DataPort::open).
    pub fn open_std(
        &mut self,
        limit: Duration,
    ) -> impl Future<Output = io::Result<net::TcpStream>> {
        let (next, ends) = (mem::take(&mut self.next), self.ends.clone());
        async move { timeout(limit, ends.open(next)).await? }
    }

    /// Closes what listens, and forgets the address of PORT and EPRT, as ABOR and a new login want
    /// it. EPSV ALL still holds.
    pub fn close(&mut self) {
        self.next = Next::Unset;
    }

    /// Begins anew, as REIN wants it (RFC 959, section 4.1.1): nothing is prepared, and EPSV ALL
    /// holds no more.
    pub fn reset(&mut self) {
        self.close();
        self.only_epsv = false;
    }

    /// A listener on a port of the range.
    fn bind(&self) -> io::Result<net::TcpListener> {
        let bind = |port| net::TcpListener::bind(self.ends.at(self.ends.server, port));
        let Some(ports) = &self.ports else { return bind(0) };
        let (first, last) = (*ports.start(), *ports.end());
        let start = first + (random() % ports.len().max(1) as u64) as u16;
        let is_in_use = |error: &io::Error| error.kind() == ErrorKind::AddrInUse;
        let mut listeners = (start..=last).chain(first..start).map(bind);
        let free = listeners.find(|listener| !listener.as_ref().is_err_and(is_in_use));
        free.unwrap_or_else(|| Err(ErrorKind::AddrInUse.into()))
    }

    /// The reply to a listener whose reply has no memory.
    fn unlisten(&mut self, _: Error) -> Reply {
        self.close();
        out_of_memory()
    }

    /// Takes the address of a data connection: only the client's own, and no port of a service.
    fn active(&mut self, address: SocketAddr) -> Reply {
        if let Some(refusal) = self.after_epsv_all() {
            return refusal;
        }
        if address.ip() != self.ends.client || address.port() < FIRST_PORT {
            let text = "Only to your own address, and to ports from 1024 on";
            return Reply::new(ReplyCode::COMMAND_NOT_IMPLEMENTED_FOR_PARAMETER, text);
        }
        self.connect_to(address.port());
        Reply::new(ReplyCode::COMMAND_OKAY, "OK")
    }

    /// The refusal of another command than EPSV after EPSV ALL.
    fn after_epsv_all(&self) -> Option<Reply> {
        let text = "Only EPSV, after EPSV ALL";
        self.only_epsv.then(|| Reply::new(ReplyCode::BAD_COMMAND_SEQUENCE, text))
    }

    /// The refusal that names the one network protocol of the control connection.
    fn other_protocol(&self) -> Reply {
        let text = format!("Use ({})", self.ends.protocol());
        Reply::new(ReplyCode::NETWORK_PROTOCOL_NOT_SUPPORTED, text)
    }
}

/// The addresses of a control connection, and so of its data connections.
#[derive(Clone, Debug)]
struct Ends {
    client: IpAddr,
    server: IpAddr,
    /// The interface, where the addresses are link-local ones of IPv6.
    scope: u32,
    on_foreign_peer: OnForeignPeer,
}

/// What is called with the address of a connection that is closed.
#[derive(Clone)]
struct OnForeignPeer(Arc<dyn Fn(SocketAddr) + Send + Sync>);

impl Debug for OnForeignPeer {
    fn fmt(&self, f: &mut Formatter<'_>) -> fmt::Result {
        f.debug_struct("OnForeignPeer").finish_non_exhaustive()
    }
}

impl Ends {
    fn new(client: SocketAddr, server: SocketAddr) -> Ends {
        let scope = match server {
            SocketAddr::V4(_) => 0,
            SocketAddr::V6(server) => server.scope_id(),
        };
        Ends {
            client: unmapped(client.ip()),
            server: unmapped(server.ip()),
            scope,
            on_foreign_peer: OnForeignPeer(Arc::new(|_| {})),
        }
    }

    /// A port of one of the addresses.
    fn at(&self, address: IpAddr, port: u16) -> SocketAddr {
        let mut address = SocketAddr::new(address, port);
        if let SocketAddr::V6(address) = &mut address {
            address.set_scope_id(self.scope);
        }
        address
    }

    /// The number of the network protocol (RFC 2428, section 2).
    fn protocol(&self) -> &'static str {
        if self.server.is_ipv4() {
            "1"
        } else {
            "2"
        }
    }

    /// The data connection.
    async fn open(&self, next: Next) -> io::Result<net::TcpStream> {
        match next {
            Next::Unset => Err(ErrorKind::NotConnected.into()),
            Next::Passive(listener) => self.accept(&listener).await,
            Next::Active(port) => self.connect(port).await?.into_std(),
        }
    }

    /// The first connection from the client's address. The runtime only learns of the listener
    /// where no connection is there yet.
    async fn accept(&self, listener: &net::TcpListener) -> io::Result<net::TcpStream> {
        loop {
            match listener.accept() {
                Ok((tcp, peer)) if unmapped(peer.ip()) == self.client => {
                    tcp.set_nonblocking(true)?;
                    return Ok(tcp);
                }
                Ok((_, peer)) => (self.on_foreign_peer.0)(peer),
                Err(error) if error.kind() == ErrorKind::WouldBlock => {
                    let waiting = AsyncFd::with_interest(listener.as_raw_fd(), Interest::READABLE)?;
                    drop(waiting.readable().await?);
                }
                Err(error) => return Err(error),
            }
        }
    }

    /// A connection to this port of the client's, from the server's own address.
    async fn connect(&self, port: u16) -> io::Result<TcpStream> {
        let is_ipv4 = self.server.is_ipv4();
        let socket = if is_ipv4 { TcpSocket::new_v4() } else { TcpSocket::new_v6() }?;
        socket.bind(self.at(self.server, 0))?;
        socket.connect(self.at(self.client, port)).await
    }
}

/// A number that others can't tell: std seeds its hashers at random.
fn random() -> u64 {
    RandomState::new().build_hasher().finish()
}

fn syntax_error(text: &'static str) -> Reply {
    Reply::new(ReplyCode::PARAMETER_SYNTAX_ERROR, text)
}

fn out_of_memory() -> Reply {
    Reply::new(ReplyCode::LOCAL_ERROR, "Out of memory")
}

/// The reply to a line whose parameter can't be read.
fn of_parameter(error: Error) -> Reply {
    match error {
        Error::OutOfMemory => out_of_memory(),
        _ => syntax_error("No network protocol"),
    }
}
