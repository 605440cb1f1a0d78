//! The data port of a server: its replies, and whose connections it takes.
#![cfg(feature = "tokio-util")]

use bytes::BytesMut;
use std::io::{self, ErrorKind};
use std::net::{IpAddr, Ipv4Addr, Ipv6Addr, SocketAddr, TcpListener};
use std::sync::{Arc, Mutex};
use std::time::Duration;
use tokio::io::{AsyncReadExt, AsyncWriteExt};
use tokio::net::{TcpSocket, TcpStream};
use tokio_util::codec::Decoder;
use unftp_control::{find_extended_port, find_host_port, DataPort, FtpLineCodec, Reply};

const LIMIT: Duration = Duration::from_secs(10);
const HOST: IpAddr = IpAddr::V4(Ipv4Addr::LOCALHOST);
const OTHER_HOST: IpAddr = IpAddr::V4(Ipv4Addr::new(127, 0, 0, 2));

/// The data port of a control connection between two ports of an address.
fn of(address: impl Into<IpAddr>) -> DataPort {
    let address = address.into();
    DataPort::new((address, 40000).into(), (address, 21).into())
}

/// The reply to a line; empty where that is for others to answer.
fn answer(data_port: &mut DataPort, line: &str) -> String {
    let mut input = BytesMut::from(format!("{line}\r\n").as_str());
    let line = FtpLineCodec::new().decode(&mut input).expect("no error").expect("a line");
    data_port.answer(&line).map_or_else(String::new, |reply| text(&reply))
}

fn text(reply: &Reply) -> String {
    let lines: Vec<_> = reply.lines().map(String::from_utf8_lossy).collect();
    format!("{} {}", reply.code().get(), lines.join("|"))
}

/// The first digits of the replies to these lines.
fn codes(data_port: &mut DataPort, lines: &[&str]) -> Vec<String> {
    lines.iter().map(|line| answer(data_port, line).chars().take(3).collect()).collect()
}

async fn connect(from: IpAddr, to: SocketAddr) -> io::Result<TcpStream> {
    let socket = TcpSocket::new_v4()?;
    socket.bind((from, 0).into())?;
    socket.connect(to).await
}

/// Sends a byte from one end to the other.
async fn wants_one_connection(near: &mut TcpStream, far: &mut TcpStream) -> io::Result<()> {
    near.write_all(b"x").await?;
    assert_eq!(far.read_u8().await?, b'x');
    Ok(())
}

#[test]
fn other_lines_are_for_others_to_answer() {
    let mut data_port = of(HOST);
    for line in ["NOOP", "RETR a", "EPRTX |1|127.0.0.1|1025|", "PASV x", "PORT"] {
        assert_eq!(answer(&mut data_port, line), "", "{line}");
    }
    assert!(!data_port.is_prepared());
}

#[test]
fn only_the_clients_own_address_is_taken() {
    let mut data_port = of(HOST);
    let port = |address: &str| format!("PORT {address}");
    for address in ["127,0,0,2,4,0", "192,0,2,7,4,0", "127,0,0,1,3,255", "127,0,0,1,0,21"] {
        assert_eq!(codes(&mut data_port, &[&port(address)]), ["504"], "{address}");
    }
    let lines = ["EPRT |1|127.0.0.2|1024|", "EPRT |1|127.0.0.1|1023|"];
    assert_eq!(codes(&mut data_port, &lines), ["504", "504"]);
    let malformed = ["PORT 127,0,0,1,0,0", "PORT 127,0,0,1", "EPRT |1|127.0.0.1|0|", "EPRT"];
    assert_eq!(codes(&mut data_port, &malformed), ["501"; 4]);
    assert!(!data_port.is_prepared());
    let own = ["PORT 127,0,0,1,4,0", "EPRT |1|127.0.0.1|1024|"];
    assert_eq!(codes(&mut data_port, &own), ["200", "200"]);
    assert!(data_port.is_prepared());
}

#[test]
fn another_protocol_is_refused_with_the_one_there_is() {
    let mut v4 = of(HOST);
    for line in ["EPRT |2|::1|1024|", "EPRT |3|a|1024|", "EPSV 2", "EPSV 3"] {
        assert_eq!(answer(&mut v4, line), "522 Use (1)", "{line}");
    }
    assert_eq!(codes(&mut v4, &["EPSV 1", "EPSV x"]), ["229", "501"]);
    let mut v6 = of(Ipv6Addr::LOCALHOST);
    for line in ["EPRT |1|127.0.0.1|1024|", "EPSV 1"] {
        assert_eq!(answer(&mut v6, line), "522 Use (2)", "{line}");
    }
    assert_eq!(codes(&mut v6, &["EPRT |2|::1|1024|", "PASV"]), ["200", "425"]);
}

// RFC 2428, section 4
#[test]
fn after_epsv_all_only_epsv_is_taken() {
    let mut data_port = of(HOST);
    let lines = ["EPSV all", "PASV", "PORT 127,0,0,1,4,0", "EPRT |1|127.0.0.1|1024|", "EPSV"];
    assert_eq!(codes(&mut data_port, &lines), ["200", "503", "503", "503", "229"]);
    data_port.close();
    assert!(!data_port.is_prepared());
    assert_eq!(codes(&mut data_port, &["PASV"]), ["503"]);
    data_port.reset();
    assert_eq!(codes(&mut data_port, &["PASV"]), ["227"]);
}

#[test]
fn a_227_has_the_public_address() {
    let mut data_port = of(HOST).with_public_address(Ipv4Addr::new(192, 0, 2, 7));
    let reply = answer(&mut data_port, "PASV");
    let named = find_host_port(reply.as_bytes()).expect("an address");
    assert_eq!(*named.ip(), Ipv4Addr::new(192, 0, 2, 7));
}

#[test]
fn a_range_is_searched_for_a_free_port() {
    let taken = TcpListener::bind((HOST, 0)).expect("a port");
    let port = taken.local_addr().expect("its port").port();
    let mut data_port = of(HOST).with_ports(port..=port);
    assert_eq!(answer(&mut data_port, "EPSV"), "425 No port is free");
    assert_eq!(data_port.passive().map_err(|error| error.kind()), Err(ErrorKind::AddrInUse));
    assert!(!data_port.is_prepared());
    drop(taken);
    // the port of a listener that is there is free for the next
    for _ in 0..2 {
        let reply = answer(&mut data_port, "EPSV");
        assert_eq!(find_extended_port(reply.as_bytes()), Some(port));
    }
    #[allow(clippy::reversed_empty_ranges)]
    let mut none = of(HOST).with_ports(5..=4);
    assert_eq!(answer(&mut none, "EPSV"), "425 No port is free");
}

#[tokio::test]
async fn a_connection_of_another_address_is_closed() -> io::Result<()> {
    let closed = Arc::new(Mutex::new(Vec::new()));
    let noted = closed.clone();
    let note = move |peer| noted.lock().expect("no panic").push(peer);
    let mut data_port = of(HOST).on_foreign_peer(note);
    let reply = answer(&mut data_port, "PASV");
    let own = find_host_port(reply.as_bytes()).expect("an address").into();
    let opening = tokio::spawn(data_port.open(LIMIT));
    assert!(!data_port.is_prepared());
    let mut foreign = connect(OTHER_HOST, own).await?;
    assert_eq!(foreign.read(&mut [0]).await?, 0);
    let mut client = connect(HOST, own).await?;
    wants_one_connection(&mut client, &mut opening.await??).await?;
    assert_eq!(*closed.lock().expect("no panic"), [foreign.local_addr()?]);
    Ok(())
}

#[tokio::test]
async fn a_client_that_is_mapped_is_one_of_ipv4() -> io::Result<()> {
    let mapped = Ipv4Addr::LOCALHOST.to_ipv6_mapped();
    let mut data_port = of(mapped);
    assert_eq!(data_port.client(), HOST);
    let reply = answer(&mut data_port, "PASV");
    let own = find_host_port(reply.as_bytes()).expect("an address");
    assert_eq!(*own.ip(), Ipv4Addr::LOCALHOST);
    let mut client = connect(HOST, own.into()).await?;
    wants_one_connection(&mut client, &mut data_port.open(LIMIT).await?).await
}

#[tokio::test]
async fn the_server_connects_from_its_own_address() -> io::Result<()> {
    let client = tokio::net::TcpListener::bind((HOST, 0)).await?;
    let port = client.local_addr()?.port();
    let mut data_port = DataPort::new((HOST, 40000).into(), (OTHER_HOST, 21).into());
    assert_eq!(codes(&mut data_port, &[&format!("EPRT |1|127.0.0.1|{port}|")]), ["200"]);
    let mut data = data_port.open(LIMIT).await?;
    let (mut accepted, peer) = client.accept().await?;
    assert_eq!(peer.ip(), OTHER_HOST);
    wants_one_connection(&mut data, &mut accepted).await
}

#[tokio::test]
async fn what_can_not_be_opened_is_an_error() -> io::Result<()> {
    let mut data_port = of(HOST);
    let unset = data_port.open(LIMIT).await.map_err(|error| error.kind());
    assert_eq!(unset.err(), Some(ErrorKind::NotConnected));
    data_port.listen()?;
    let late = data_port.open(Duration::from_millis(10)).await.map_err(|error| error.kind());
    assert_eq!(late.err(), Some(ErrorKind::TimedOut));
    let closed = data_port.listen()?.port();
    data_port.connect_to(closed);
    let refused = data_port.open(LIMIT).await.map_err(|error| error.kind());
    assert_eq!(refused.err(), Some(ErrorKind::ConnectionRefused));
    Ok(())
}
