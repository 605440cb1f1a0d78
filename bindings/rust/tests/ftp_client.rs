//! The calls of `FtpClient`, and transfers at servers that do each thing that a server may do.
#![cfg(feature = "tokio-util")]

use std::future::Future;
use std::io::ErrorKind;
use std::net::{Ipv4Addr, SocketAddr};
use std::time::Duration;
use tokio::io::{duplex, AsyncBufReadExt, AsyncReadExt, AsyncWriteExt, BufReader, DuplexStream};
use tokio::net::{TcpListener, TcpStream};
use tokio::sync::oneshot;
use tokio::task::JoinHandle;
use tokio::time::timeout;
use tokio_util::codec::Framed;
use unftp_control::{
    ClientError, CodecError, Command, Error, FtpClient, NameLine, RawLine, ReceivedReply,
};

const PATIENCE: Duration = Duration::from_secs(20);
const MOMENT: Duration = Duration::from_millis(100);

/// A client of a server that sends the first of these texts, and each other one after a line. Then
/// it closes the connection, and has the lines.
fn server(texts: &[&[u8]]) -> (FtpClient<DuplexStream>, JoinHandle<Vec<Vec<u8>>>) {
    let (near, far) = duplex(4096);
    let texts: Vec<Vec<u8>> = texts.iter().map(|text| text.to_vec()).collect();
    let lines = tokio::spawn(async move {
        let (mut far, mut lines) = (BufReader::new(far), Vec::new());
        for (at, text) in texts.into_iter().enumerate() {
            let mut line = Vec::new();
            if at > 0 && far.read_until(b'\n', &mut line).await.expect("the client writes") > 0 {
                lines.push(line);
            }
            far.write_all(&text).await.expect("the client reads");
        }
        lines
    });
    (FtpClient::new(near), lines)
}

fn codes(replies: &[ReceivedReply<'_>]) -> Vec<u16> {
    replies.iter().map(ReceivedReply::code).collect()
}

#[tokio::test]
async fn an_answer_has_all_replies_up_to_the_final_one() -> Result<(), ClientError> {
    let (mut client, lines) = server(&[
        b"120 Wait\r\n220 Ready\r\n",
        b"257 \"/\"\r\n",
        b"110 MARK\r\n150 Opening\r\n226-Done\r\n226 \xff\r\n",
        b"500 What?\r\n",
    ]);
    let greeting = client.greeting().await?;
    assert_eq!((codes(&greeting.preliminary), greeting.reply.code()), (vec![120], 220));
    let pwd = client.ask(Command::Pwd).await?;
    assert_eq!((pwd.preliminary.len(), pwd.reply.bytes()), (0, &b"257 \"/\"\r\n"[..]));
    let stat = client.ask(b"stat a\n").await?;
    assert_eq!(codes(&stat.preliminary), [110, 150]);
    assert_eq!(stat.reply.bytes(), b"226-Done\r\n226 \xff\r\n");
    assert_eq!(client.ask(RawLine(b"X\r\n")).await?.reply.code(), 500);
    assert_eq!(lines.await.expect("it ends"), [&b"PWD\r\n"[..], b"STAT a\r\n", b"X\r\n"]);
    assert!(matches!(client.ask(Command::Noop).await, Err(ClientError::Closed)));
    Ok(())
}

#[tokio::test]
async fn a_421_that_came_before_the_command_is_no_reply_to_it() -> Result<(), ClientError> {
    let (mut client, lines) = server(&[b"220 Ready\r\n", b"200 OK\r\n421 Idle too long\r\n"]);
    client.greeting().await?;
    assert_eq!(client.ask(Command::Noop).await?.reply.code(), 200);
    let error = client.ask(Command::Pwd).await.expect_err("it came before");
    let text = "a reply that was not asked for: 421 Idle too long";
    assert_eq!(error.to_string(), text);
    assert!(matches!(error, ClientError::Unexpected(reply) if reply.code() == 421));
    assert_eq!(client.framed().codec().sent(), 1);
    assert_eq!(lines.await.expect("it ends"), [b"NOOP\r\n"]);
    Ok(())
}

#[tokio::test]
async fn a_421_to_the_command_is_its_final_reply() -> Result<(), ClientError> {
    let (mut client, lines) = server(&[b"220 Ready\r\n", b"150 Opening\r\n421 Stopping\r\n"]);
    client.greeting().await?;
    let stat = client.ask(Command::Stat { path: None }).await?;
    assert_eq!((stat.preliminary.len(), stat.reply.code()), (1, 421));
    lines.await.expect("it ends");
    assert!(matches!(client.ask(Command::Noop).await, Err(ClientError::Closed)));
    Ok(())
}

#[tokio::test]
async fn the_end_before_the_final_reply_is_an_error() -> Result<(), ClientError> {
    for (text, is_within) in [(&b""[..], false), (b"150 Opening\r\n", false), (b"226 Do", true)] {
        let (mut client, _) = server(&[b"220 Ready\r\n", text]);
        client.greeting().await?;
        match client.ask(Command::Noop).await.expect_err("there is no final reply") {
            ClientError::Closed => assert!(!is_within),
            ClientError::Codec(CodecError::Incomplete { left: 6 }) => assert!(is_within),
            error => panic!("{error}"),
        }
    }
    Ok(())
}

#[tokio::test]
async fn preliminary_replies_have_a_bound() -> Result<(), ClientError> {
    let (mut client, _) = server(&[b"220 Ready\r\n", &[*b"150 a\r\n"; 17].concat()]);
    client.greeting().await?;
    assert!(matches!(client.ask(Command::Noop).await, Err(ClientError::TooManyReplies)));
    Ok(())
}

#[tokio::test]
async fn what_gives_no_line_is_not_sent() -> Result<(), ClientError> {
    let (mut client, lines) = server(&[b"220 Ready\r\n", b"200 OK\r\n"]);
    client.greeting().await?;
    let two = client.begin(Command::Retr { path: "a\nDELE b".into() }).await;
    assert_eq!(unsent(two.expect_err("no line")), Error::NoLine);
    let two = client.begin(NameLine("RETR", b"a\nDELE b")).await;
    assert_eq!(unsent(two.expect_err("two lines")), Error::NotALine);
    let two = client.ask(b"NOOP\r\nDELE b\r\n").await;
    assert_eq!(unsent(two.expect_err("two lines")), Error::NotALine);
    for (name, password) in [("anna", "a\nDELE b"), ("a\nDELE b", "secret")] {
        let two = client.log_in(name, password).await;
        assert_eq!(unsent(two.expect_err("no line")), Error::NoLine);
    }
    assert_eq!(client.ask(Command::Noop).await?.reply.code(), 200);
    assert_eq!(lines.await.expect("it ends"), [b"NOOP\r\n"]);
    Ok(())
}

/// Why a line was not sent.
fn unsent(error: ClientError) -> Error {
    match error {
        ClientError::Codec(CodecError::Control(error)) => error,
        error => panic!("{error}"),
    }
}

#[tokio::test]
async fn an_answer_is_finished_before_the_next_command() -> Result<(), ClientError> {
    let (mut client, lines) =
        server(&[b"220 Ready\r\n", b"150 Opening\r\n110 a\r\n226 Done\r\n", b"200 OK\r\n"]);
    assert!(matches!(client.ask(Command::Noop).await, Err(ClientError::Unfinished)));
    client.greeting().await?;
    assert!(matches!(client.greeting().await, Err(ClientError::NothingOwed)));
    assert!(matches!(client.finish().await, Err(ClientError::NothingOwed)));
    assert_eq!(client.begin(Command::Stat { path: None }).await?.code(), 150);
    assert!(matches!(client.ask(Command::Noop).await, Err(ClientError::Unfinished)));
    assert!(matches!(client.begin(Command::Noop).await, Err(ClientError::Unfinished)));
    assert!(matches!(client.log_in("a", "b").await, Err(ClientError::Unfinished)));
    let answer = client.finish().await?;
    assert_eq!((codes(&answer.preliminary), answer.reply.code()), (vec![110], 226));
    assert_eq!(client.ask(Command::Noop).await?.reply.code(), 200);
    assert_eq!(lines.await.expect("it ends"), [b"STAT\r\n", b"NOOP\r\n"]);
    Ok(())
}

#[tokio::test]
async fn a_call_that_is_dropped_loses_nothing() -> Result<(), ClientError> {
    // a line is longer than what is between them, so that a call is also dropped within it
    let (near, far) = duplex(16);
    let mut client = FtpClient::new(near);
    let mut far = BufReader::new(far);
    assert!(timeout(MOMENT, client.greeting()).await.is_err());
    far.write_all(b"220 Ready\r\n").await.expect("it has room");
    client.finish().await?;
    let stat = NameLine("STAT", &[b'a'; 40]);
    assert!(timeout(MOMENT, client.ask(stat)).await.is_err());
    let mut line = String::new();
    tokio::select! {
        _ = client.finish() => panic!("there is no final reply"),
        () = async {
            far.read_line(&mut line).await.expect("a line");
            far.write_all(b"150 Opening\r\n").await.expect("the client reads");
            // it has no room before the client has read the first reply
            far.write_all(b"110 MARK\r\n").await.expect("the client reads");
        } => {}
    }
    assert_eq!(line, format!("STAT {}\r\n", "a".repeat(40)));
    far.write_all(b"212\r\n").await.expect("it has room");
    let answer = client.finish().await?;
    assert_eq!((codes(&answer.preliminary), answer.reply.code()), (vec![150, 110], 212));
    Ok(())
}

#[tokio::test]
async fn a_login_sends_a_password_only_after_331() -> Result<(), ClientError> {
    let user = &b"USER caf\xe9\r\n"[..];
    let pass = &b"PASS s\xfccret\r\n"[..];
    for (replies, last, wanted) in [
        (&[&b"331 Password\r\n"[..], b"230 Hello\r\n"][..], 230, &[user, pass][..]),
        (&[b"331 Password\r\n", b"202 Superfluous\r\n"], 202, &[user, pass]),
        (&[b"230 Hello\r\n"], 230, &[user]),
        (&[b"331 Password\r\n", b"530-No\r\n530 login\r\n"], 530, &[user, pass]),
        (&[b"331 Password\r\n", b"332 Account\r\n"], 332, &[user, pass]),
        (&[b"332 Account\r\n"], 332, &[user]),
        (&[b"530 No\r\n"], 530, &[user]),
        (&[b"421 Stopping\r\n"], 421, &[user]),
    ] {
        let texts: Vec<&[u8]> = [&b"220 Ready\r\n"[..]].iter().chain(replies).copied().collect();
        let (mut client, lines) = server(&texts);
        client.greeting().await?;
        let reply = match client.log_in(b"caf\xe9", b"s\xfccret").await {
            Ok(reply) => {
                assert!(last < 300, "{last}");
                reply
            }
            Err(ClientError::Refused(reply)) => {
                assert!(last >= 300, "{last}");
                reply
            }
            Err(error) => panic!("{error}"),
        };
        assert_eq!((reply.code(), reply.bytes()), (last, replies[replies.len() - 1]));
        assert_eq!(lines.await.expect("it ends"), wanted);
    }
    Ok(())
}

#[tokio::test]
async fn a_login_goes_on_after_332() -> Result<(), ClientError> {
    let (mut client, lines) = server(&[b"220 Ready\r\n", b"332 Account\r\n", b"230 Hello\r\n"]);
    client.greeting().await?;
    let error = client.log_in("anna", "secret").await.expect_err("it wants an account");
    assert_eq!(error.to_string(), "the server refuses: 332 Account");
    let acct = Command::Acct { account: "staff".into() };
    assert_eq!(client.ask(acct).await?.reply.code(), 230);
    assert_eq!(lines.await.expect("it ends"), [&b"USER anna\r\n"[..], b"ACCT staff\r\n"]);
    Ok(())
}

/// The end of a server: a control connection, and where it listens for the data.
struct Far {
    control: BufReader<TcpStream>,
    listener: TcpListener,
}

impl Far {
    async fn say(&mut self, text: &str) {
        self.control.write_all(text.as_bytes()).await.expect("the client reads");
    }

    async fn hear(&mut self, wanted: &[u8]) {
        let mut line = Vec::new();
        self.control.read_until(b'\n', &mut line).await.expect("the client writes");
        assert_eq!(line.escape_ascii().to_string(), wanted.escape_ascii().to_string());
    }

    fn port(&self) -> u16 {
        self.listener.local_addr().expect("it listens").port()
    }

    async fn say_port(&mut self) {
        self.hear(b"EPSV\r\n").await;
        self.say(&format!("229 Listening (|||{}|)\r\n", self.port())).await;
    }

    async fn accept(&self) -> TcpStream {
        self.listener.accept().await.expect("the client connects").0
    }

    /// The line of a transfer with its first reply, and the data connection.
    async fn begin(&mut self, line: &[u8]) -> TcpStream {
        self.say_port().await;
        self.hear(line).await;
        self.say("150 Opening\r\n").await;
        self.accept().await
    }
}

/// A client that is greeted by a server that does this.
async fn at_server<F>(
    serve: impl FnOnce(Far) -> F,
) -> Result<(FtpClient<TcpStream>, JoinHandle<()>), ClientError>
where
    F: Future<Output = ()> + Send + 'static,
{
    let any = SocketAddr::from((Ipv4Addr::LOCALHOST, 0));
    let (control, listener) = tokio::join!(TcpListener::bind(any), TcpListener::bind(any));
    let (control, listener) = (control.expect("a port"), listener.expect("a port"));
    let near = TcpStream::connect(control.local_addr().expect("it listens"));
    let (near, far) = tokio::join!(near, control.accept());
    let far = Far { control: BufReader::new(far.expect("the client connects").0), listener };
    let server = tokio::spawn(serve(far));
    let mut client = FtpClient::new(near.expect("it listens"));
    client.greeting().await?;
    Ok((client, server))
}

/// Reads a file over a new data connection, up to its end or an error: what came, and the final
/// reply.
async fn download(
    client: &mut FtpClient<TcpStream>,
) -> Result<(Vec<u8>, ReceivedReply<'static>), ClientError> {
    let mut data = client.passive(PATIENCE).await?;
    client.begin(NameLine("RETR", b"caf\xe9")).await?;
    let mut bytes = Vec::new();
    let _ = data.read_to_end(&mut bytes).await;
    Ok((bytes, client.finish().await?.reply))
}

const RETR: &[u8] = b"RETR caf\xe9\r\n";

#[tokio::test]
async fn a_refused_transfer_uses_no_data_connection() -> Result<(), ClientError> {
    let (mut client, server) = at_server(|mut far| async move {
        far.say("220 Ready\r\n").await;
        far.say_port().await;
        far.hear(RETR).await;
        far.say("550 No such file\r\n").await;
        // the data connection is neither accepted nor closed
        far.hear(b"NOOP\r\n").await;
        far.say("200 OK\r\n").await;
    })
    .await?;
    let refused = timeout(PATIENCE, download(&mut client)).await.expect("it ends");
    let error = refused.expect_err("there is no file");
    assert_eq!(error.to_string(), "the server refuses: 550 No such file");
    assert_eq!(client.ask(Command::Noop).await?.reply.code(), 200);
    server.await.expect("it heard each line");
    Ok(())
}

#[tokio::test]
async fn data_may_be_larger_than_all_buffers() -> Result<(), ClientError> {
    const SIZE: usize = 40_000_000;
    let (mut client, server) = at_server(|mut far| async move {
        far.say("220 Ready\r\n").await;
        let mut data = far.begin(RETR).await;
        data.write_all(&vec![7; SIZE]).await.expect("the client reads");
        drop(data);
        far.say("226 Done\r\n").await;
        let mut data = far.begin(b"STOR a\r\n").await;
        let mut bytes = Vec::new();
        data.read_to_end(&mut bytes).await.expect("the client writes");
        assert_eq!(bytes.len(), SIZE);
        far.say("226 Done\r\n").await;
    })
    .await?;
    let (bytes, reply) = timeout(PATIENCE, download(&mut client)).await.expect("it ends")?;
    assert_eq!((bytes.len(), reply.code()), (SIZE, 226));
    let mut data = client.passive(PATIENCE).await?;
    client.begin(Command::Stor { path: "a".into() }).await?;
    data.write_all(&bytes).await.expect("the server reads");
    drop(data);
    assert_eq!(client.finish().await?.reply.code(), 226);
    server.await.expect("it heard each line");
    Ok(())
}

#[tokio::test]
async fn a_final_reply_may_come_before_the_data_is_read() -> Result<(), ClientError> {
    let (mut client, server) = at_server(|mut far| async move {
        far.say("220 Ready\r\n").await;
        far.say_port().await;
        far.hear(RETR).await;
        far.say("150 Opening\r\n226 Done\r\n").await;
        let mut data = far.accept().await;
        tokio::time::sleep(MOMENT).await;
        data.write_all(b"all of it").await.expect("the client reads");
    })
    .await?;
    // in a task of its own, since a client may be moved to another thread
    let downloading = tokio::spawn(async move { download(&mut client).await });
    let (bytes, reply) = downloading.await.expect("it ends")?;
    assert_eq!((&bytes[..], reply.code()), (&b"all of it"[..], 226));
    server.await.expect("it heard each line");
    Ok(())
}

#[tokio::test]
async fn a_transfer_may_be_cut() -> Result<(), ClientError> {
    let (mut client, server) = at_server(|mut far| async move {
        far.say("220 Ready\r\n").await;
        let mut data = far.begin(RETR).await;
        data.write_all(b"a part").await.expect("the client reads");
        drop(data);
        far.say("426 Cut\r\n").await;
        // the client ends this one
        let mut data = far.begin(RETR).await;
        while data.write_all(&[7; 65_536]).await.is_ok() {}
        far.say("426 Cut\r\n").await;
    })
    .await?;
    let (bytes, reply) = download(&mut client).await?;
    assert_eq!((&bytes[..], reply.code()), (&b"a part"[..], 426));
    let data = client.passive(PATIENCE).await?;
    client.begin(NameLine("RETR", b"caf\xe9")).await?;
    drop(data);
    let cut = client.finish().await?.completed().expect_err("it is cut");
    assert!(matches!(cut, ClientError::Refused(reply) if reply.code() == 426));
    server.await.expect("it heard each line");
    Ok(())
}

#[tokio::test]
async fn a_server_may_close_within_a_transfer() -> Result<(), ClientError> {
    let (mut client, server) = at_server(|mut far| async move {
        far.say("220 Ready\r\n").await;
        let mut data = far.begin(RETR).await;
        data.write_all(b"a part").await.expect("the client reads");
    })
    .await?;
    assert!(matches!(download(&mut client).await, Err(ClientError::Closed)));
    assert!(matches!(client.ask(Command::Noop).await, Err(ClientError::Unfinished)));
    assert!(matches!(client.finish().await, Err(ClientError::Closed)));
    server.await.expect("it heard each line");
    Ok(())
}

#[tokio::test]
async fn pasv_is_for_a_server_that_refuses_epsv() -> Result<(), ClientError> {
    let (mut client, server) = at_server(|mut far| async move {
        far.say("220 Ready\r\n").await;
        for refusal in ["500 What?", "522 No", "425 No"] {
            far.hear(b"EPSV\r\n").await;
            far.say(&format!("{refusal}\r\n")).await;
            far.hear(b"PASV\r\n").await;
            let port = far.port();
            // the address of another machine (RFC 5737): the client doesn't go there
            let text = format!("227 Here (192,0,2,1,{},{})\r\n", port / 256, port % 256);
            far.say(&text).await;
            far.accept().await.write_all(b"here").await.expect("the client reads");
        }
    })
    .await?;
    for _ in 0..3 {
        let mut text = String::new();
        let mut data = client.passive(PATIENCE).await?;
        data.read_to_string(&mut text).await.expect("the server writes");
        assert_eq!(text, "here");
    }
    server.await.expect("it heard each line");
    Ok(())
}

#[tokio::test]
async fn a_data_connection_may_be_refused() -> Result<(), ClientError> {
    let (mut client, server) = at_server(|mut far| async move {
        far.say("220 Ready\r\n").await;
        for (epsv, pasv) in [
            ("530 Log in", Some("530 Log in")),
            ("229 No port", None),
            ("229 (|||0|)", None),
            ("502 No", Some("227 No address")),
            ("502 No", Some("227 (127,0,0,1,0,0)")),
            ("229 (|||1|)", None),
            ("421 Stopping", None),
        ] {
            far.hear(b"EPSV\r\n").await;
            far.say(&format!("{epsv}\r\n")).await;
            if let Some(reply) = pasv {
                far.hear(b"PASV\r\n").await;
                far.say(&format!("{reply}\r\n")).await;
            }
        }
    })
    .await?;
    let local = Ipv4Addr::LOCALHOST.into();
    for wanted in [530, 229, 229, 227, 227, 0, 421] {
        let code = match client.passive_at(local, PATIENCE).await.expect_err("it is refused") {
            ClientError::Refused(reply) if matches!(reply.code(), 421 | 530) => reply.code(),
            ClientError::NoPort(reply) if matches!(reply.code(), 227 | 229) => reply.code(),
            ClientError::Data(error) if error.kind() == ErrorKind::ConnectionRefused => 0,
            error => panic!("{error}"),
        };
        assert_eq!(code, wanted);
    }
    server.await.expect("it heard each line");
    Ok(())
}

#[tokio::test]
async fn a_data_connection_has_a_limit_of_time() -> Result<(), ClientError> {
    let (late, is_late) = oneshot::channel();
    let (mut client, server) = at_server(|mut far| async move {
        far.say("220 Ready\r\n").await;
        far.hear(b"EPSV\r\n").await;
        is_late.await.expect("the client says so");
        far.say(&format!("229 Listening (|||{}|)\r\n", far.port())).await;
        far.say_port().await;
        far.accept().await;
    })
    .await?;
    assert!(matches!(client.passive(MOMENT).await, Err(ClientError::TimedOut)));
    late.send(()).expect("the server waits");
    assert!(matches!(client.passive(PATIENCE).await, Err(ClientError::Unfinished)));
    assert_eq!(client.finish().await?.reply.code(), 229);
    client.passive(PATIENCE).await?;
    server.await.expect("it heard each line");
    Ok(())
}

#[tokio::test]
async fn a_client_goes_on_under_tls() -> Result<(), ClientError> {
    let (mut client, lines) = server(&[b"220 Ready\r\n", b"234 Begin\r\n"]);
    client.greeting().await?;
    assert!(!client.tls_agreed());
    client.ask(b"AUTH TLS\r\n").await?.completed()?;
    assert!(client.tls_agreed());
    // another pair of streams is as good as what TLS decrypts
    let (near, mut far) = duplex(4096);
    let mut client = FtpClient::from(Framed::new(near, client.into_framed().into_parts().codec));
    let (answer, wrote) =
        tokio::join!(client.ask(Command::Pwd), async { far.write_all(b"257 \"/\"\r\n").await });
    wrote.expect("the client reads");
    assert_eq!(answer?.completed()?.bytes(), b"257 \"/\"\r\n");
    assert_eq!(lines.await.expect("it ends"), [b"AUTH TLS\r\n"]);
    Ok(())
}

#[tokio::test]
async fn only_a_code_from_200_to_299_completes_a_command() -> Result<(), ClientError> {
    let (mut client, _) = server(&[b"220 Ready\r\n", b"350 Send RNTO\r\n", b"250 OK\r\n"]);
    assert_eq!(client.greeting().await?.completed()?.code(), 220);
    let rnfr = client.ask(Command::Rnfr { file: "a".into() }).await?.completed();
    assert!(matches!(rnfr, Err(ClientError::Refused(reply)) if reply.code() == 350));
    assert_eq!(client.ask(Command::Rnto { file: "b".into() }).await?.completed()?.code(), 250);
    Ok(())
}
