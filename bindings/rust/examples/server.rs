//! A small FTP control server on tokio: `server [PORT [IDLE_SECONDS [CONNECTIONS]]]`. PORT is a port
//! of 127.0.0.1, or an address with a port, as `0.0.0.0:2121` or `[::1]:2121`. It prints its port as
//! one line; where that is 0, the system picks one. Anybody may log in. TLS and data connections are
//! left out.
use bytes::BytesMut;
use std::net::{Ipv4Addr, SocketAddr};
use std::{env, io, io::ErrorKind, process::ExitCode, sync::Arc, time::Duration};
use tokio::io::{copy, sink, AsyncWriteExt};
use tokio::net::{TcpListener, TcpStream};
use tokio::signal::unix::{signal, SignalKind};
use tokio::sync::{watch, watch::Receiver, Semaphore};
use tokio::task::JoinSet;
use tokio::time::{sleep, timeout, timeout_at, Instant};
use tokio_util::codec::{Decoder, Encoder};
use unftp_control::{CodecError, Command, Event, FtpCodec, Reply, ReplyCode as Code};

/// How long a client may take to read the last reply and to close.
const LINGER: Duration = Duration::from_secs(5);

/// The reply to an event, where the last reply had this code.
fn answer(event: Event, last: Code, is_user: bool) -> Reply {
    let (code, text) = match event {
        Event::Command(Command::User { .. }) => (Code::NEED_PASSWORD, "Password required"),
        Event::Command(Command::Pass { .. }) if last == Code::NEED_PASSWORD => {
            (Code::USER_LOGGED_IN, "Logged in")
        }
        Event::Command(Command::Pass { .. }) => (Code::BAD_COMMAND_SEQUENCE, "USER comes first"),
        Event::Command(Command::Feat) => return Reply::features(["UTF8"]),
        Event::Command(Command::Pwd | Command::Type) if !is_user => {
            (Code::NOT_LOGGED_IN, "Not logged in")
        }
        Event::Command(Command::Pwd) => (Code::DIR_CREATED, "\"/\" is the directory"),
        Event::Command(Command::Type) => (Code::COMMAND_OKAY, "OK"),
        event => return event.usual_reply(),
    };
    Reply::new(code, text)
}

/// Answers a client until QUIT or its end; the last replies are still to be sent.
async fn talk(tcp: &mut TcpStream, out: &mut BytesMut, idle: Duration) -> Result<(), CodecError> {
    let (mut codec, mut input) = (FtpCodec::new(), BytesMut::new());
    let (mut last, mut is_user) = (Code::SERVICE_READY, false);
    codec.encode(Reply::new(last, "Ready"), out)?;
    let mut deadline = Instant::now() + idle;
    loop {
        while let Some(event) = codec.decode(&mut input)? {
            deadline = Instant::now() + idle;
            let reply = answer(event, last, is_user);
            last = reply.code();
            codec.encode(reply, out)?;
            match last {
                Code::NEED_PASSWORD => is_user = false,
                Code::USER_LOGGED_IN => is_user = true,
                Code::CLOSING_CONTROL_CONNECTION => return Ok(()),
                _ => {}
            }
        }
        timeout_at(deadline, tcp.write_all_buf(out)).await.map_err(io::Error::from)??;
        timeout_at(deadline, tcp.readable()).await.map_err(io::Error::from)??;
        input.reserve(4096);
        // a read ends before an urgent byte, and `read` would take it for all that has come
        match tcp.try_read_buf(&mut input) {
            Ok(0) => return Ok(()),
            Err(error) if error.kind() != ErrorKind::WouldBlock => return Err(error.into()),
            _ => {}
        }
    }
}

async fn serve(mut tcp: TcpStream, places: Arc<Semaphore>, idle: Duration, mut stop: Receiver<()>) {
    // a client that aborts sends the end of its line as urgent data
    let _ = socket2::SockRef::from(&tcp).set_out_of_band_inline(true);
    let (mut out, place) = (BytesMut::new(), places.try_acquire());
    let ended = tokio::select! {
        biased;
        _ = std::future::ready(()), if place.is_err() => Some("Too many connections"),
        _ = stop.changed() => Some("Stopping"),
        talked = talk(&mut tcp, &mut out, idle) => match talked {
            Err(CodecError::Io(it)) if it.kind() == ErrorKind::TimedOut => Some("Idle too long"),
            _ => None,
        },
    };
    let _ = ended.map(|text| Reply::new(Code::SERVICE_NOT_AVAILABLE, text).encode(&mut out));
    // To close over unread bytes resets the connection, and the last reply may be lost: what the
    // client still sends is read and dropped.
    let closed = async {
        tcp.write_all_buf(&mut out).await?;
        tcp.shutdown().await?;
        copy(&mut tcp, &mut sink()).await
    };
    let _ = timeout(LINGER, closed).await;
}

/// Where to listen, the idle limit and the number of connections: `None` where the words are wrong.
fn options(words: &[String]) -> Option<(SocketAddr, Duration, usize)> {
    let number = |place: usize, otherwise: u32| {
        words.get(place).map_or(Some(otherwise), |word| word.parse().ok())
    };
    let address = match words.first() {
        None => (Ipv4Addr::LOCALHOST, 2121).into(),
        Some(word) => match word.parse::<u16>() {
            Ok(port) => (Ipv4Addr::LOCALHOST, port).into(),
            Err(_) => word.parse().ok()?,
        },
    };
    let (idle, most) = (Duration::from_secs(number(1, 300)?.into()), number(2, 100)? as usize);
    (words.len() <= 3).then_some((address, idle, most))
}

/// Serves clients until a signal ends that.
async fn listen(address: SocketAddr, idle: Duration, most: usize) -> io::Result<()> {
    let places = Arc::new(Semaphore::new(most));
    let (stopping, stop) = watch::channel(());
    let mut interrupted = signal(SignalKind::interrupt())?;
    let mut terminated = signal(SignalKind::terminate())?;
    let listener = TcpListener::bind(address).await?;
    println!("{}", listener.local_addr()?.port());
    let mut sessions = JoinSet::new();
    loop {
        tokio::select! {
            accepted = listener.accept() => match accepted {
                Ok((it, _)) => drop(sessions.spawn(serve(it, places.clone(), idle, stop.clone()))),
                Err(_) => sleep(LINGER / 50).await, // as where no file descriptor is left
            },
            Some(_) = sessions.join_next() => {}
            _ = interrupted.recv() => break,
            _ = terminated.recv() => break,
        }
    }
    drop((listener, stopping));
    while sessions.join_next().await.is_some() {}
    Ok(())
}

#[tokio::main]
async fn main() -> ExitCode {
    let Some((address, idle, most)) = options(&env::args().skip(1).collect::<Vec<_>>()) else {
        eprintln!("usage: server [PORT|ADDRESS:PORT [IDLE_SECONDS [CONNECTIONS]]]");
        return ExitCode::from(2);
    };
    if let Err(error) = listen(address, idle, most).await {
        eprintln!("server: {address}: {error}");
        return ExitCode::FAILURE;
    }
    ExitCode::SUCCESS
}
