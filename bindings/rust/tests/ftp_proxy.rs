//! A proxy between clients and servers that do each thing that they may do.
#![cfg(feature = "tokio-util")]

use std::io;
use std::time::Duration;
use tokio::io::{duplex, AsyncBufReadExt, AsyncReadExt, AsyncWriteExt, BufReader, DuplexStream};
use tokio::task::JoinHandle;
use tokio::time::{sleep, timeout};
use unftp_control::{
    CodecError, Command, Error, Event, FtpProxy, ProxyEvent, Reply, ReplyCode, To,
};

const PATIENCE: Duration = Duration::from_secs(20);
const MOMENT: Duration = Duration::from_millis(100);

type Proxy = FtpProxy<DuplexStream, DuplexStream>;
type Relaying = JoinHandle<Result<(), CodecError>>;

/// A proxy, with its client and its server: each stream holds so many bytes.
fn proxy(room: usize) -> (DuplexStream, Proxy, DuplexStream) {
    let (client, to_client) = duplex(room);
    let (to_server, server) = duplex(room);
    (client, FtpProxy::new(to_client, to_server), server)
}

/// The client and the server of a proxy that answers DELE, and asks for EPSV in place of PASV.
fn relayed(room: usize) -> (DuplexStream, DuplexStream, Relaying) {
    let (client, proxy, server) = proxy(room);
    (client, server, tokio::spawn(relay(proxy)))
}

async fn relay(mut proxy: Proxy) -> Result<(), CodecError> {
    while let Some(event) = proxy.next().await? {
        match event {
            ProxyEvent::Reply(taken) => taken.pass_on(),
            ProxyEvent::Line(taken) => match taken.line.event {
                Event::Command(Command::Dele { .. }) => taken.answer(not_allowed())?,
                Event::Command(Command::Pasv) => taken.forward_as(b"epsv\n")?,
                _ => taken.forward()?,
            },
        }
    }
    Ok(())
}

/// The next event, which is a line or a reply.
macro_rules! next {
    ($proxy:expr, $kind:ident) => {
        match timeout(PATIENCE, $proxy.next()).await.map_err(io::Error::from)?? {
            Some(ProxyEvent::$kind(taken)) => taken,
            other => panic!("{other:?}"),
        }
    };
}

fn not_allowed() -> Reply {
    Reply::new(ReplyCode::COMMAND_NOT_IMPLEMENTED, "Not allowed")
}

/// A server that greets late, and sends each of these texts a moment after a line. It has the lines.
fn slow_server(server: DuplexStream, texts: &'static [&'static str]) -> JoinHandle<String> {
    tokio::spawn(async move {
        let (mut server, mut lines) = (BufReader::new(server), String::new());
        for (at, text) in texts.iter().enumerate() {
            if at > 0 {
                server.read_line(&mut lines).await.expect("the proxy writes");
            }
            sleep(MOMENT / 10).await;
            server.write_all(text.as_bytes()).await.expect("the proxy reads");
        }
        lines
    })
}

async fn all(client: &mut DuplexStream) -> io::Result<String> {
    let mut text = String::new();
    timeout(PATIENCE, client.read_to_string(&mut text)).await??;
    Ok(text)
}

/// Reads these bytes, after which a moment brings no others.
async fn wants(stream: &mut DuplexStream, bytes: &[u8]) -> io::Result<()> {
    let mut found = vec![0; bytes.len()];
    timeout(PATIENCE, stream.read_exact(&mut found)).await??;
    assert_eq!(String::from_utf8_lossy(&found), String::from_utf8_lossy(bytes));
    assert!(!matches!(timeout(MOMENT, stream.read_u8()).await, Ok(Ok(_))));
    Ok(())
}

#[tokio::test]
async fn answers_come_in_the_order_of_the_lines() -> Result<(), CodecError> {
    let (mut client, server, relaying) = relayed(4096);
    client.write_all(b"NOOP\r\nDELE a\r\npasv\r\nDELE b\r\nDELE c\r\nquit\r\n").await?;
    let texts = &["220 Ready\r\n", "200 OK\r\n", "229 (|||4|)\r\n", "221 Bye\r\n"];
    let lines = slow_server(server, texts);
    let refused = "502 Not allowed\r\n";
    let [greeting, noop, epsv, quit] = *texts;
    let wanted = [greeting, noop, refused, epsv, refused, refused, quit].concat();
    assert_eq!(all(&mut client).await?, wanted);
    drop(client);
    assert_eq!(lines.await.expect("no panic"), "NOOP\r\nEPSV\r\nQUIT\r\n");
    relaying.await.expect("no panic")
}

// RFC 959, section 5.4
#[tokio::test]
async fn an_answer_comes_after_the_final_reply() -> Result<(), CodecError> {
    let (mut client, mut server, relaying) = relayed(4096);
    client.write_all(b"RETR a\r\nDELE b\r\nNOOP\r\n").await?;
    wants(&mut server, b"RETR a\r\n").await?;
    let begun = b"120 Wait\r\n220-\xff\r\n 7\r\n220 \r\n110 MARK\r\n150 Opening\r\n";
    server.write_all(begun).await?;
    wants(&mut client, begun).await?;
    server.write_all(b"631 \xfe\r\n").await?;
    wants(&mut client, b"631 \xfe\r\n502 Not allowed\r\n").await?;
    wants(&mut server, b"NOOP\r\n").await?;
    drop((client, server));
    // the 421 that the client is owed has no reader
    assert!(matches!(relaying.await.expect("no panic"), Err(CodecError::Io(_))));
    Ok(())
}

#[tokio::test]
async fn a_421_is_passed_on_and_is_the_end() -> Result<(), CodecError> {
    let end = "421 Stopping\r\n";
    for (before, lines) in [("", ""), ("220 Ready\r\n", ""), ("220 Ready\r\n", "NOOP\r\nPWD\r\n")] {
        let (mut client, mut server, relaying) = relayed(4096);
        client.write_all(lines.as_bytes()).await?;
        wants(&mut server, lines.as_bytes()).await?;
        server.write_all([before, end, "200 OK\r\n"].concat().as_bytes()).await?;
        assert_eq!(all(&mut client).await?, [before, end].concat());
        drop(client);
        relaying.await.expect("no panic")?;
    }
    Ok(())
}

// RFC 959, section 4.2.2
#[tokio::test]
async fn a_server_that_ends_owing_a_reply_is_421() -> Result<(), CodecError> {
    let greeting = "220 Ready\r\n";
    let cases = [
        ("", "", "421"),
        (greeting, "", "220"),
        (greeting, "NOOP\r\n", "220 421"),
        ("220 Ready\r\n150 Opening\r\n", "RETR a\r\nDELE b\r\nNOOP\r\n", "220 150 421"),
    ];
    for (replies, lines, codes) in cases {
        let (mut client, mut server, relaying) = relayed(4096);
        client.write_all(lines.as_bytes()).await?;
        let first = lines.split_inclusive('\n').next().unwrap_or_default();
        wants(&mut server, first.as_bytes()).await?;
        server.write_all(replies.as_bytes()).await?;
        drop(server);
        let found = all(&mut client).await?;
        let found: Vec<&str> = found.lines().map(|line| &line[..3]).collect();
        assert_eq!(found.join(" "), codes);
        drop(client);
        relaying.await.expect("no panic")?;
    }
    Ok(())
}

// RFC 959, section 4.1.1: after QUIT the server closes the control connection
#[tokio::test]
async fn a_reply_that_closes_is_the_last() -> Result<(), CodecError> {
    for end in ["221 Bye\r\n", "421 Stopping\r\n"] {
        let (mut client, mut server, relaying) = relayed(4096);
        client.write_all(b"QUIT\r\nDELE a\r\nNOOP\r\n").await?;
        wants(&mut server, b"QUIT\r\n").await?;
        let replies = ["220 Ready\r\n", end].concat();
        server.write_all(replies.as_bytes()).await?;
        assert_eq!(all(&mut client).await?, replies);
        drop(client);
        relaying.await.expect("no panic")?;
    }
    let (mut client, mut proxy, mut server) = proxy(4096);
    server.write_all(b"220 Ready\r\n").await?;
    next!(proxy, Reply).pass_on();
    client.write_all(b"QUIT\r\nNOOP\r\n").await?;
    next!(proxy, Line).answer_usual();
    let ending = tokio::spawn(async move { is_over(&mut proxy).await });
    assert_eq!(all(&mut client).await?, "220 Ready\r\n221 Bye\r\n");
    drop(client);
    assert!(ending.await.expect("no panic")?);
    Ok(())
}

#[tokio::test]
async fn a_last_reply_is_in_place_of_those_owed() -> Result<(), CodecError> {
    let (mut client, mut proxy, mut server) = proxy(4096);
    client.write_all(b"NOOP\r\nDELE a\r\nPW").await?;
    server.write_all(b"220 Ready\r\n").await?;
    next!(proxy, Reply).pass_on();
    next!(proxy, Line).forward()?;
    next!(proxy, Line).answer(not_allowed())?;
    assert!(timeout(MOMENT, proxy.next()).await.is_err());
    let late = Reply::new(ReplyCode::SERVICE_NOT_AVAILABLE, "Idle too long");
    let closing = tokio::spawn(proxy.close(late));
    assert_eq!(all(&mut client).await?, "220 Ready\r\n421 Idle too long\r\n");
    assert_eq!(all(&mut server).await?, "NOOP\r\n");
    drop(client);
    closing.await.expect("no panic")
}

#[tokio::test]
async fn a_421_comes_before_the_error_of_a_line() -> Result<(), CodecError> {
    let (mut client, mut proxy, mut server) = proxy(4096);
    client.write_all(b"NOOP\r\n").await?;
    next!(proxy, Line).forward()?;
    server.write_all(b"220 Ready\r\n421 Stopping\r\n").await?;
    drop(server);
    for code in [220, 421] {
        assert_eq!(next!(proxy, Reply).reply.code(), code);
    }
    client.shutdown().await?;
    assert!(is_over(&mut proxy).await?);
    drop(proxy);
    assert_eq!(all(&mut client).await?, "220 Ready\r\n421 Stopping\r\n");
    Ok(())
}

#[tokio::test]
async fn a_reply_to_nothing_is_an_error() -> io::Result<()> {
    let (mut client, mut server, relaying) = relayed(4096);
    server.write_all(b"220 Ready\r\n200 OK\r\n").await?;
    match relaying.await? {
        Err(CodecError::Unexpected(reply)) => assert_eq!(reply.code(), 200),
        other => panic!("{other:?}"),
    }
    assert_eq!(all(&mut client).await?, "220 Ready\r\n");
    Ok(())
}

#[tokio::test]
async fn a_client_that_has_ended_gets_its_replies() -> Result<(), CodecError> {
    for (lines, codes) in [("", "220"), ("NOOP\r\nDELE a\r\nPWD\r\n", "220 200 502 257")] {
        let (mut client, server, relaying) = relayed(4096);
        client.write_all(lines.as_bytes()).await?;
        client.shutdown().await?;
        let texts = &["220 Ready\r\n", "200 OK\r\n", "257 \"/\"\r\n", "226 Late\r\n"];
        let server = slow_server(server, texts);
        let replies = all(&mut client).await?;
        let found: Vec<&str> = replies.lines().map(|line| &line[..3]).collect();
        assert_eq!(found.join(" "), codes);
        relaying.await.expect("no panic")?;
        server.abort();
    }
    Ok(())
}

#[tokio::test]
async fn the_65th_line_waits_for_a_reply() -> Result<(), CodecError> {
    let (mut client, mut server, relaying) = relayed(4096);
    client.write_all(&b"NOOP\r\n".repeat(65)).await?;
    wants(&mut server, &b"NOOP\r\n".repeat(64)).await?;
    server.write_all(b"220 Ready\r\n").await?;
    wants(&mut server, b"").await?;
    server.write_all(b"200 OK\r\n").await?;
    wants(&mut server, b"NOOP\r\n").await?;
    server.write_all(&b"200 OK\r\n".repeat(64)).await?;
    client.shutdown().await?;
    assert_eq!(all(&mut client).await?.matches("200 OK").count(), 65);
    relaying.await.expect("no panic")
}

#[tokio::test]
async fn only_clear_lines_are_sent() -> Result<(), CodecError> {
    let (mut client, mut server, relaying) = relayed(20_000);
    let long = "a".repeat(9000);
    let lines = format!("RETR a\rDELE b\r\nDELE\tb\r\nCWD \u{ff}\0\r\nNOOP x\r\nRETR {long}\r\n");
    server.write_all(b"220 Ready\r\n").await?;
    client.write_all(lines.as_bytes()).await?;
    client.shutdown().await?;
    let replies = all(&mut client).await?;
    let codes: Vec<&str> = replies.lines().map(|line| &line[..3]).collect();
    // the bare CR and the invalid parameter are refused, and what is too long; the others not clear
    assert_eq!(codes, ["220", "500", "501", "501", "501", "500"]);
    relaying.await.expect("no panic")?;
    let mut sent = Vec::new();
    server.read_to_end(&mut sent).await?;
    assert!(sent.is_empty());
    Ok(())
}

#[tokio::test]
async fn what_is_dropped_has_its_end() -> Result<(), CodecError> {
    let (mut client, mut proxy, mut server) = proxy(4096);
    server.write_all(b"220 Ready\r\n").await?;
    client.write_all(b"DELE a\r\nNOOP x\r\n").await?;
    client.shutdown().await?;
    for _ in ["220", "DELE", "NOOP"] {
        assert!(!is_over(&mut proxy).await?);
    }
    assert!(is_over(&mut proxy).await?);
    drop(proxy);
    let replies = all(&mut client).await?;
    assert_eq!(replies, "220 Ready\r\n502 Not implemented\r\n501 Invalid parameter\r\n");
    wants(&mut server, b"").await?;
    Ok(())
}

async fn is_over(proxy: &mut Proxy) -> Result<bool, CodecError> {
    let event = timeout(PATIENCE, proxy.next()).await.map_err(io::Error::from)??;
    Ok(event.is_none())
}

#[tokio::test]
async fn a_reply_has_the_line_that_it_is_to() -> Result<(), CodecError> {
    let (mut client, mut proxy, mut server) = proxy(4096);
    client.write_all(b"pasv\r\nRETR a\r\n").await?;
    next!(proxy, Line).forward_as(b"EPSV\r\n")?;
    next!(proxy, Line).forward()?;
    server.write_all(b"220 Ready\r\n229 (|||4|)\r\n150 Opening\r\n421 Stopping\r\n").await?;
    assert!(matches!(next!(proxy, Reply).to, To::Greeting));
    match next!(proxy, Reply).to {
        To::Command(line) => assert_eq!(line.bytes, "pasv\r\n"),
        other => panic!("{other:?}"),
    }
    for code in [150, 421] {
        let taken = next!(proxy, Reply);
        match &taken.to {
            To::Command(line) => assert_eq!(line.bytes, "RETR a\r\n"),
            other => panic!("{other:?}"),
        }
        assert_eq!(taken.reply.code(), code);
    }
    client.shutdown().await?;
    assert!(is_over(&mut proxy).await?);
    Ok(())
}

#[tokio::test]
async fn a_reply_is_replaced_by_one_of_its_kind() -> Result<(), CodecError> {
    let (mut client, mut proxy, mut server) = proxy(4096);
    client.write_all(b"RETR a\r\n").await?;
    next!(proxy, Line).forward()?;
    server.write_all(b"220 Ready\r\n150 Opening\r\n226 Done\r\n421 Late\r\n").await?;
    let own = |code| Reply::new(ReplyCode::new(code).expect("a code"), "Own");
    next!(proxy, Reply).replace(own(220))?;
    let unequal = next!(proxy, Reply).replace(own(226));
    assert!(matches!(unequal, Err(CodecError::Control(Error::OutOfOrder))));
    let unequal = next!(proxy, Reply).replace(own(150));
    assert!(matches!(unequal, Err(CodecError::Control(Error::OutOfOrder))));
    let last = next!(proxy, Reply);
    assert!(matches!(last.to, To::Nothing));
    last.replace(own(421))?;
    let ending = tokio::spawn(async move { is_over(&mut proxy).await });
    let replies = all(&mut client).await?;
    assert_eq!(replies, "220 Own\r\n150 Opening\r\n226 Done\r\n421 Own\r\n");
    drop(client);
    assert!(ending.await.expect("no panic")?);
    Ok(())
}

#[tokio::test]
async fn what_would_break_the_order_is_refused() -> Result<(), CodecError> {
    let (mut client, mut proxy, mut server) = proxy(4096);
    server.write_all(b"220 Ready\r\n").await?;
    next!(proxy, Reply).pass_on();
    client.write_all(b"DELE a\r\nDELE b\r\n").await?;
    let begun = Reply::new(ReplyCode::FILE_STATUS_OKAY, "Opening");
    let answered = next!(proxy, Line).answer(begun);
    assert!(matches!(answered, Err(CodecError::Control(Error::OutOfOrder))));
    let sent = next!(proxy, Line).forward_as(b"NOOP\r\nDELE b\r\n");
    assert!(matches!(sent, Err(CodecError::Control(Error::NotALine))));
    client.shutdown().await?;
    assert!(is_over(&mut proxy).await?);
    drop(proxy);
    assert_eq!(all(&mut client).await?.matches("502 Not implemented").count(), 2);
    wants(&mut server, b"").await?;
    Ok(())
}

#[tokio::test]
async fn a_call_that_is_dropped_loses_nothing() -> Result<(), CodecError> {
    let (mut client, mut proxy, mut server) = proxy(8);
    assert!(timeout(MOMENT, proxy.next()).await.is_err());
    for piece in ["NO", "OP", "\r\n"] {
        client.write_all(piece.as_bytes()).await?;
        let _ = timeout(MOMENT, async { next!(proxy, Line).forward() }).await;
    }
    server.write_all(b"220 ").await?;
    assert!(timeout(MOMENT, proxy.next()).await.is_err());
    server.write_all(b"R\r\n").await?;
    next!(proxy, Reply).pass_on();
    assert!(timeout(MOMENT, proxy.next()).await.is_err());
    wants(&mut client, b"220 R\r\n").await?;
    wants(&mut server, b"NOOP\r\n").await?;
    Ok(())
}

/// How many of these bytes a stream takes within a moment.
async fn taken(stream: &mut DuplexStream, bytes: &[u8]) -> usize {
    let mut count = 0;
    while let Ok(Ok(more @ 1..)) = timeout(MOMENT, stream.write(&bytes[count..])).await {
        count += more;
    }
    count
}

#[tokio::test]
async fn a_client_that_does_not_read_stops_the_server() -> Result<(), CodecError> {
    let (mut client, mut server, _relaying) = relayed(500);
    let (reply, lines) = (["200 ", &"a".repeat(1000), "\r\n"].concat(), b"NOOP\r\n".repeat(64));
    server.write_all(b"220 Ready\r\n").await?;
    client.write_all(&lines).await?;
    wants(&mut server, &lines).await?;
    let replies = reply.repeat(64);
    let count = taken(&mut server, replies.as_bytes()).await;
    assert!(count < 12_000, "{count}");
    let rest = tokio::spawn(async move { server.write_all(&replies.as_bytes()[count..]).await });
    assert_eq!(all(&mut client).await?.len(), 11 + 64 * reply.len());
    rest.await.expect("no panic")?;
    Ok(())
}

#[tokio::test]
async fn a_server_that_does_not_read_stops_the_client() -> Result<(), CodecError> {
    let (mut client, mut server, _relaying) = relayed(500);
    let lines = ["RETR ", &"a".repeat(1000), "\r\n"].concat().repeat(60);
    let count = taken(&mut client, lines.as_bytes()).await;
    assert!(count < 12_000, "{count}");
    let sent = lines.clone();
    let rest = tokio::spawn(async move { client.write_all(&sent.as_bytes()[count..]).await });
    let mut received = vec![0; lines.len()];
    server.read_exact(&mut received).await?;
    assert_eq!(received, lines.as_bytes());
    rest.await.expect("no panic")?;
    Ok(())
}
