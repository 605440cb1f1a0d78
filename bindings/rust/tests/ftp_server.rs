//! The server's end of a control connection: what it answers itself, and transfers with a client that
//! does each thing that a client may do.
#![cfg(feature = "tokio-util")]

use std::future::ready;
use std::io::{self, ErrorKind};
use std::net::{IpAddr, Ipv4Addr, SocketAddr};
use std::path::PathBuf;
use std::pin::Pin;
use std::sync::{Arc, Mutex};
use std::task::{Context, Poll};
use std::time::Duration;
use tokio::fs::File;
use tokio::io::{duplex, BufReader, BufWriter, ReadBuf};
use tokio::io::{AsyncBufReadExt, AsyncRead, AsyncReadExt, AsyncWrite, AsyncWriteExt};
use tokio::net::{TcpListener, TcpSocket, TcpStream};
use tokio::task::JoinHandle;
use tokio::time::{sleep, timeout};
use unftp_control::{
    find_extended_port, find_host_port, CodecError, Command, Error, Event, FtpServer, LineRequest,
    Reply, ReplyCode, Request, Transfer,
};

const PATIENCE: Duration = Duration::from_secs(20);
const MOMENT: Duration = Duration::from_millis(100);
const HOST: IpAddr = IpAddr::V4(Ipv4Addr::LOCALHOST);
const OTHER_HOST: IpAddr = IpAddr::V4(Ipv4Addr::new(127, 0, 0, 2));
const LOGIN: &str = "USER anna\r\nPASS secret\r\n";

/// A client that only sends and receives lines.
struct Client(BufReader<TcpStream>);

impl Client {
    async fn send(&mut self, lines: impl AsRef<[u8]>) -> io::Result<()> {
        self.0.write_all(lines.as_ref()).await
    }

    async fn reply(&mut self) -> io::Result<String> {
        let mut reply = String::new();
        timeout(PATIENCE, self.0.read_line(&mut reply)).await??;
        Ok(reply)
    }

    /// The codes of so many replies, each of one line.
    async fn codes(&mut self, count: usize) -> io::Result<Vec<String>> {
        let mut codes = Vec::new();
        while codes.len() < count {
            codes.push(self.reply().await?.chars().take(3).collect());
        }
        Ok(codes)
    }

    /// The codes of all replies up to the server's end.
    async fn all_codes(&mut self) -> io::Result<Vec<String>> {
        let mut text = String::new();
        timeout(PATIENCE, self.0.read_to_string(&mut text)).await??;
        Ok(text.lines().map(|line| line.chars().take(3).collect()).collect())
    }

    /// Logs in, and has nothing more to read.
    async fn log_in(&mut self) -> io::Result<()> {
        self.send(LOGIN).await?;
        assert_eq!(self.codes(3).await?, ["220", "331", "230"]);
        Ok(())
    }

    /// Where the server listens for a data connection.
    async fn passive(&mut self) -> io::Result<SocketAddr> {
        self.send("EPSV\r\n").await?;
        let port = find_extended_port(self.reply().await?.as_bytes()).expect("a port");
        Ok((HOST, port).into())
    }

    /// A data connection.
    async fn data(&mut self) -> io::Result<TcpStream> {
        TcpStream::connect(self.passive().await?).await
    }

    /// Sends no more. The server's next line is its end.
    async fn end(&mut self) -> io::Result<()> {
        self.0.shutdown().await
    }
}

async fn connect(from: IpAddr, to: SocketAddr) -> io::Result<TcpStream> {
    let socket = TcpSocket::new_v4()?;
    socket.bind((from, 0).into())?;
    socket.connect(to).await
}

async fn pair() -> io::Result<(Client, FtpServer)> {
    let listener = TcpListener::bind((HOST, 0)).await?;
    let client = TcpStream::connect(listener.local_addr()?).await?;
    let (control, _) = listener.accept().await?;
    socket2::SockRef::from(&control).set_out_of_band_inline(true)?;
    Ok((Client(BufReader::new(client)), FtpServer::new(control)?))
}

/// How the transfers ended.
type Ended = JoinHandle<Result<Vec<String>, CodecError>>;

/// A client of a server that answers by `answer`.
async fn served(set_up: impl FnOnce(FtpServer) -> FtpServer) -> io::Result<(Client, Ended)> {
    let (client, server) = pair().await?;
    Ok((client, tokio::spawn(serve(set_up(server)))))
}

async fn serve(mut server: FtpServer) -> Result<Vec<String>, CodecError> {
    let mut ended = Vec::new();
    while let Some(request) = server.next().await? {
        match request {
            Request::Login(login) => {
                let accepted = login.name == b"anna" && login.password.as_bytes() == b"secret";
                login.answer(accepted).await?;
            }
            Request::Line(request) => ended.extend(answer(request).await?.map(shown)),
        }
    }
    Ok(ended)
}

/// Answers PWD and transfers. The paths of these are cases.
async fn answer(request: LineRequest<'_>) -> Result<Option<Transfer>, CodecError> {
    let path = match &request.line.event {
        Event::Command(Command::Pwd) => {
            request.reply(Reply::directory(b"/")?).await?;
            return Ok(None);
        }
        Event::Command(Command::Retr { path } | Command::Stor { path }) => path.to_string(),
        _ => {
            request.reply_usual().await?;
            return Ok(None);
        }
    };
    let transfer = match &*path {
        "/absent" => request.send_data(File::open("/absent")).await?,
        "/absent/a" => request.receive_data(File::create("/absent/a")).await?,
        "faulty" if matches!(&request.line.event, Event::Command(Command::Retr { .. })) => {
            request.send_data(ready(Ok(Faulty))).await?
        }
        "faulty" => request.receive_data(ready(Ok(Faulty))).await?,
        "much" => request.send_data(ready(Ok(&*much()))).await?,
        "stalled" => {
            let (file, _end) = duplex(1);
            request.send_data(ready(Ok(file))).await?
        }
        path => request.receive_data(File::create(path)).await?,
    };
    Ok(Some(transfer))
}

fn shown(transfer: Transfer) -> String {
    match transfer {
        Transfer::Complete { bytes } => format!("{bytes} bytes"),
        Transfer::NoFile(_) => "no file".into(),
        Transfer::NoConnection(_) => "no connection".into(),
        Transfer::ConnectionLost(_) => "connection lost".into(),
        Transfer::FileFault(_) => "file fault".into(),
        other => panic!("{other:?}"),
    }
}

/// 40 MB.
fn much() -> Vec<u8> {
    (0..40_000_000_u32).map(|at| (at ^ at >> 8) as u8).collect()
}

/// A file that can't be read or written.
struct Faulty;

impl AsyncRead for Faulty {
    fn poll_read(
        self: Pin<&mut Self>,
        _: &mut Context<'_>,
        _: &mut ReadBuf<'_>,
    ) -> Poll<io::Result<()>> {
        Poll::Ready(Err(ErrorKind::Other.into()))
    }
}

impl AsyncWrite for Faulty {
    fn poll_write(self: Pin<&mut Self>, _: &mut Context<'_>, _: &[u8]) -> Poll<io::Result<usize>> {
        Poll::Ready(Err(ErrorKind::Other.into()))
    }

    fn poll_flush(self: Pin<&mut Self>, _: &mut Context<'_>) -> Poll<io::Result<()>> {
        Poll::Ready(Ok(()))
    }

    fn poll_shutdown(self: Pin<&mut Self>, _: &mut Context<'_>) -> Poll<io::Result<()>> {
        Poll::Ready(Ok(()))
    }
}

#[tokio::test]
async fn lines_of_one_write_are_answered_in_order() -> io::Result<()> {
    let (mut client, ended) = served(|server| server).await?;
    let before = "PWD\r\nPASS secret\r\nRETR much\r\nUSER anna\r\nPASS wrong\r\nPWD\r\nEPSV\r\n";
    let after = "PWD\r\nNOOP x\r\nNOOP\r\nRETR much\r\nMKD a\r\nQUIT\r\nPWD\r\n";
    client.send([before, LOGIN, after].concat()).await?;
    let before = ["220", "530", "503", "530", "331", "530", "530", "530"];
    let after = ["331", "230", "257", "501", "200", "425", "502", "221"];
    assert_eq!(client.all_codes().await?, [before, after].concat());
    drop(client);
    assert_eq!(ended.await?.expect("no error"), ["no connection"]);
    Ok(())
}

#[tokio::test]
async fn the_reply_to_quit_comes_whatever_follows_it() -> io::Result<()> {
    for _ in 0..20 {
        let (mut client, ended) = served(|server| server).await?;
        client.send(["QUIT\r\n", &"NOOP\r\n".repeat(10_000)].concat()).await?;
        assert_eq!(client.all_codes().await?, ["220", "221"]);
        drop(client);
        ended.await?.expect("no error");
    }
    Ok(())
}

#[tokio::test]
async fn a_request_that_is_dropped_has_its_reply() -> Result<(), CodecError> {
    let (mut client, mut server) = pair().await?;
    client.send([LOGIN, "PWD\r\n", LOGIN, "PWD\r\nNOOP\r\n"].concat()).await?;
    assert!(matches!(server.next().await?, Some(Request::Login(_))));
    // nobody is logged in, so that PWD needs no program
    match server.next().await? {
        Some(Request::Login(login)) => login.answer(true).await?,
        other => panic!("{other:?}"),
    }
    for verb in ["PWD", "NOOP"] {
        match server.next().await? {
            Some(Request::Line(request)) => {
                assert_eq!(request.user(), Some(&b"anna"[..]), "{verb}")
            }
            other => panic!("{other:?}"),
        }
    }
    client.end().await?;
    assert!(server.next().await?.is_none());
    drop(server);
    let codes = ["220", "331", "530", "530", "331", "230", "502", "200"];
    assert_eq!(client.all_codes().await?, codes);
    Ok(())
}

#[tokio::test]
async fn a_preliminary_reply_is_none_to_a_line() -> Result<(), CodecError> {
    let (mut client, mut server) = pair().await?;
    client.send("NOOP\r\n").await?;
    let Some(Request::Line(request)) = server.next().await? else { panic!("a line") };
    let sent = request.reply(Reply::new(ReplyCode::FILE_STATUS_OKAY, "Opening")).await;
    assert!(matches!(sent, Err(CodecError::Control(Error::OutOfOrder))));
    client.end().await?;
    assert!(server.next().await?.is_none());
    drop(server);
    assert_eq!(client.all_codes().await?, ["220", "200"]);
    Ok(())
}

#[tokio::test]
async fn a_last_reply_is_in_place_of_any_other() -> Result<(), CodecError> {
    let late = || Reply::new(ReplyCode::SERVICE_NOT_AVAILABLE, "Too many connections");
    let (mut client, server) = pair().await?;
    let closed = tokio::spawn(server.close(late()));
    assert_eq!(client.all_codes().await?, ["421"]);
    drop(client);
    closed.await.expect("no panic")?;

    let (mut client, server) = pair().await?;
    let mut server = server.with_greeting(Reply::new(ReplyCode::SERVICE_READY, "Hello"));
    client.send("NOOP\r\nPW").await?;
    assert!(matches!(server.next().await?, Some(Request::Line(_))));
    let closed = tokio::spawn(server.close(late()));
    assert_eq!(client.reply().await?, "220 Hello\r\n");
    assert_eq!(client.all_codes().await?, ["421"]);
    drop(client);
    closed.await.expect("no panic")
}

#[tokio::test]
async fn the_clients_end_within_a_line_is_an_error() -> io::Result<()> {
    let (mut client, ended) = served(|server| server).await?;
    client.send("NOOP\r\nPWD").await?;
    client.end().await?;
    assert_eq!(client.all_codes().await?, ["220", "200"]);
    assert!(matches!(ended.await?, Err(CodecError::Incomplete { left: 3 })));
    Ok(())
}

#[tokio::test]
async fn a_call_that_is_dropped_loses_no_line() -> Result<(), CodecError> {
    let (mut client, mut server) = pair().await?;
    client.send("NO").await?;
    assert!(timeout(MOMENT, server.next()).await.is_err());
    client.send("OP\r\n").await?;
    assert!(matches!(server.next().await?, Some(Request::Line(_))));
    client.end().await?;
    assert!(server.next().await?.is_none());
    Ok(())
}

#[tokio::test]
async fn options_are_those_that_were_set() -> io::Result<()> {
    let logged = Arc::new(Mutex::new(Vec::new()));
    let lines = logged.clone();
    let (mut client, ended) = served(|server| {
        let named = Ipv4Addr::new(192, 0, 2, 7);
        let log = move |client, line| {
            lines.lock().expect("no panic").push(format!("{client}: {line}"));
        };
        let server = server.with_data_port(|data_port| data_port.with_public_address(named));
        server.with_line_limit(20).on_line(log)
    })
    .await?;
    client.log_in().await?;
    client.send("PASV\r\n").await?;
    let named = find_host_port(client.reply().await?.as_bytes()).expect("an address");
    assert_eq!(*named.ip(), Ipv4Addr::new(192, 0, 2, 7));
    client.send(["RETR ", &"a".repeat(20), "\r\nQUIT\r\n"].concat()).await?;
    assert_eq!(client.codes(2).await?, ["500", "221"]);
    drop(client);
    ended.await?.expect("no error");
    let lines = ["USER anna", "PASS ***", "PASV", "refused: Line too long", "QUIT"];
    let lines = lines.map(|line| format!("127.0.0.1: {line}"));
    assert_eq!(*logged.lock().expect("no panic"), lines);
    Ok(())
}

// RFC 959, section 4.2.2
#[tokio::test]
async fn a_data_connection_that_is_not_there_is_425() -> io::Result<()> {
    let (mut client, ended) = served(|server| server.with_opening_time(MOMENT)).await?;
    client.log_in().await?;
    client.send("RETR much\r\nSTOR /absent/a\r\nRETR /absent\r\nEPSV\r\nRETR much\r\n").await?;
    let codes = ["425", "425", "550", "229", "150", "425"];
    assert_eq!(client.codes(6).await?, codes);
    let closed = TcpListener::bind((HOST, 0)).await?.local_addr()?.port();
    client.send(format!("EPRT |1|127.0.0.1|{closed}|\r\nRETR much\r\n")).await?;
    assert_eq!(client.codes(3).await?, ["200", "150", "425"]);
    // what was prepared before a login is not for the next user
    client.send(["EPSV\r\n", LOGIN, "RETR much\r\nQUIT\r\n"].concat()).await?;
    assert_eq!(client.codes(5).await?, ["229", "331", "230", "425", "221"]);
    drop(client);
    let mut wanted = ["no connection"; 6];
    wanted[2] = "no file";
    assert_eq!(ended.await?.expect("no error"), wanted);
    Ok(())
}

#[tokio::test]
async fn a_data_connection_of_another_address_is_closed() -> io::Result<()> {
    let (mut client, _) = served(|server| server).await?;
    client.log_in().await?;
    let address = client.passive().await?;
    client.send("RETR much\r\n").await?;
    let mut foreign = connect(OTHER_HOST, address).await?;
    assert_eq!(foreign.read(&mut [0]).await?, 0);
    let mut data = connect(HOST, address).await?;
    let mut received = Vec::new();
    data.read_to_end(&mut received).await?;
    assert!(received == much());
    assert_eq!(client.codes(2).await?, ["150", "226"]);
    Ok(())
}

#[tokio::test]
async fn a_data_connection_that_breaks_is_426() -> io::Result<()> {
    let (mut client, ended) = served(|server| server).await?;
    client.log_in().await?;
    let data = client.data().await?;
    client.send("RETR much\r\n").await?;
    assert_eq!(client.codes(1).await?, ["150"]);
    drop(data);
    assert_eq!(client.codes(1).await?, ["426"]);

    let path = temporary("cut");
    let mut data = client.data().await?;
    client.send(format!("STOR {}\r\n", path.display())).await?;
    assert_eq!(client.codes(1).await?, ["150"]);
    data.write_all(b"some").await?;
    wait_for(&path, b"some").await?;
    socket2::SockRef::from(&data).set_linger(Some(Duration::ZERO))?;
    drop(data);
    assert_eq!(client.codes(1).await?, ["426"]);
    std::fs::remove_file(path)?;
    client.send("PWD\r\nQUIT\r\n").await?;
    assert_eq!(client.codes(2).await?, ["257", "221"]);
    drop(client);
    assert_eq!(ended.await?.expect("no error"), ["connection lost"; 2]);
    Ok(())
}

// RFC 959, section 4.1.3
#[tokio::test]
async fn abor_closes_what_is_prepared() -> io::Result<()> {
    let (mut client, ended) = served(|server| server).await?;
    client.send(["ABOR\r\n", LOGIN, "EPSV\r\nABOR\r\nRETR much\r\nQUIT\r\n"].concat()).await?;
    let codes = ["220", "530", "331", "230", "229", "226", "425", "221"];
    assert_eq!(client.all_codes().await?, codes);
    drop(client);
    assert_eq!(ended.await?.expect("no error"), ["no connection"]);
    Ok(())
}

// RFC 959, section 4.1.3: ftplib sends the line feed of an ABOR as urgent data
#[tokio::test]
async fn the_end_of_an_abor_may_be_urgent() -> io::Result<()> {
    let (mut client, _) = served(|server| server).await?;
    client.log_in().await?;
    for _ in 0..20 {
        socket2::SockRef::from(client.0.get_ref()).send_out_of_band(b"ABOR\r\n")?;
        assert_eq!(client.codes(1).await?, ["226"]);
        client.send("NOOP\r\n").await?;
        assert_eq!(client.codes(1).await?, ["200"]);
    }
    Ok(())
}

#[tokio::test]
async fn a_transfer_that_stalls_ends() -> io::Result<()> {
    let (mut client, ended) = served(|server| server.with_stall_time(MOMENT)).await?;
    client.log_in().await?;
    let path = temporary("stalled");
    let lines = [format!("STOR {}\r\n", path.display()), "RETR much\r\n".into()];
    for line in lines {
        let _data = client.data().await?;
        client.send(&line).await?;
        assert_eq!(client.codes(2).await?, ["150", "426"], "{line}");
    }
    std::fs::remove_file(path)?;
    let _data = client.data().await?;
    client.send("RETR stalled\r\nQUIT\r\n").await?;
    assert_eq!(client.codes(3).await?, ["150", "451", "221"]);
    drop(client);
    let lost = "connection lost";
    assert_eq!(ended.await?.expect("no error"), [lost, lost, "file fault"]);
    Ok(())
}

#[tokio::test]
async fn a_client_that_does_not_read_is_ended() -> Result<(), CodecError> {
    let is_late = |error: &CodecError| match error {
        CodecError::Io(error) => error.kind() == ErrorKind::TimedOut,
        _ => false,
    };
    let (mut client, server) = pair().await?;
    let mut server = server.with_stall_time(MOMENT);
    client.send("NOOP\r\n".repeat(1000)).await?;
    let text = "a".repeat(60_000);
    let error = loop {
        let Some(Request::Line(request)) = server.next().await? else { panic!("NOOP") };
        let long = Reply::new(ReplyCode::COMMAND_OKAY, text.clone());
        if let Err(error) = request.reply(long).await {
            break error;
        }
    };
    assert!(is_late(&error), "{error}");
    let late = Reply::new(ReplyCode::SERVICE_NOT_AVAILABLE, "Idle too long");
    let closed = timeout(PATIENCE, server.close(late)).await.map_err(io::Error::from)?;
    assert!(closed.is_err_and(|error| is_late(&error)));
    Ok(())
}

fn temporary(name: &str) -> PathBuf {
    std::env::temp_dir().join(format!("ftp_server_{}_{name}", std::process::id()))
}

/// Waits until a file has these bytes.
async fn wait_for(path: &PathBuf, bytes: &[u8]) -> io::Result<()> {
    let written = async {
        while std::fs::read(path).ok().as_deref() != Some(bytes) {
            sleep(MOMENT / 10).await;
        }
    };
    Ok(timeout(PATIENCE, written).await?)
}

#[tokio::test]
async fn a_fault_of_the_file_is_451() -> io::Result<()> {
    let (mut client, ended) = served(|server| server).await?;
    client.log_in().await?;
    for line in ["RETR faulty\r\n", "STOR faulty\r\n", "STOR /absent/a\r\n"] {
        let mut data = client.data().await?;
        data.write_all(b"some").await?;
        client.send(line).await?;
        assert_eq!(client.codes(2).await?, ["150", "451"], "{line}");
    }
    client.send("QUIT\r\n").await?;
    assert_eq!(client.codes(1).await?, ["221"]);
    drop(client);
    assert_eq!(ended.await?.expect("no error"), ["file fault"; 3]);
    Ok(())
}

#[tokio::test]
async fn forty_megabytes_pass_both_ways() -> io::Result<()> {
    let (mut client, ended) = served(|server| server).await?;
    client.log_in().await?;
    let (content, path, mut received) = (much(), temporary("much"), Vec::new());
    let mut data = client.data().await?;
    client.send("RETR much\r\n").await?;
    data.read_to_end(&mut received).await?;
    assert!(received == content);
    assert_eq!(client.codes(2).await?, ["150", "226"]);

    // in active mode
    let listener = TcpListener::bind((HOST, 0)).await?;
    let port = listener.local_addr()?.port();
    client.send(format!("EPRT |1|127.0.0.1|{port}|\r\nSTOR {}\r\n", path.display())).await?;
    let (mut data, _) = listener.accept().await?;
    data.write_all(&content).await?;
    drop(data);
    assert_eq!(client.codes(3).await?, ["200", "150", "226"]);
    assert!(std::fs::read(&path)? == content);
    std::fs::remove_file(path)?;
    client.send("QUIT\r\n").await?;
    assert_eq!(client.codes(1).await?, ["221"]);
    drop(client);
    assert_eq!(ended.await?.expect("no error"), ["40000000 bytes"; 2]);
    Ok(())
}

#[tokio::test]
async fn what_is_stored_is_flushed_before_226() -> Result<(), CodecError> {
    let (mut client, mut server) = pair().await?;
    client.send([LOGIN, "EPSV\r\nSTOR a\r\n"].concat()).await?;
    let Some(Request::Login(login)) = server.next().await? else { panic!("a login") };
    login.answer(true).await?;
    let Some(Request::Line(request)) = server.next().await? else { panic!("STOR") };
    client.codes(3).await?;
    let port = find_extended_port(client.reply().await?.as_bytes()).expect("a port");
    let mut data = TcpStream::connect((HOST, port)).await?;
    data.write_all(b"some").await?;
    drop(data);
    let mut stored = Vec::new();
    let ended = request.receive_data(ready(Ok(BufWriter::new(&mut stored)))).await?;
    assert!(matches!(ended, Transfer::Complete { bytes: 4 }));
    assert_eq!(stored, b"some");
    assert_eq!(client.codes(2).await?, ["150", "226"]);
    Ok(())
}

#[tokio::test]
async fn a_transfer_that_is_dropped_is_426() -> Result<(), CodecError> {
    let (mut client, mut server) = pair().await?;
    client.send([LOGIN, "EPSV\r\nRETR much\r\nNOOP\r\n"].concat()).await?;
    let Some(Request::Login(login)) = server.next().await? else { panic!("a login") };
    login.answer(true).await?;
    let Some(Request::Line(request)) = server.next().await? else { panic!("RETR") };
    // the client opens no data connection
    assert!(timeout(MOMENT, request.send_data(ready(Ok(&b"some"[..])))).await.is_err());
    let Some(Request::Line(request)) = server.next().await? else { panic!("NOOP") };
    request.reply_usual().await?;
    client.end().await?;
    assert!(server.next().await?.is_none());
    drop(server);
    assert_eq!(client.all_codes().await?, ["220", "331", "230", "229", "150", "426", "200"]);
    Ok(())
}
