//! A server that knows PWD, and gives each other event its usual reply, under `Framed`: `framed [PORT]`. It bounds neither the time
//! of a client nor their number; `server.rs` does.
use futures_util::{SinkExt, StreamExt};
use std::time::Duration;
use tokio::net::{TcpListener, TcpStream};
use tokio::time::sleep;
use tokio_util::codec::Framed;
use unftp_control::{CodecError, Command, Event, FtpCodec, Reply, ReplyCode};

async fn serve(stream: TcpStream) -> Result<(), CodecError> {
    let mut client = Framed::new(stream, FtpCodec::new());
    client.send(Reply::new(ReplyCode::SERVICE_READY, "Ready")).await?;
    while let Some(event) = client.next().await {
        let reply = match event? {
            Event::Command(Command::Quit) => break,
            Event::Command(Command::Pwd) => Reply::directory(b"/")?,
            event => event.usual_reply(),
        };
        client.send(reply).await?;
    }
    client.send(Command::Quit.usual_reply()).await
}

#[tokio::main]
async fn main() -> std::io::Result<()> {
    let Ok(port) = std::env::args().nth(1).map_or(Ok(2121), |port| port.parse::<u16>()) else {
        eprintln!("usage: framed [PORT]");
        std::process::exit(2);
    };
    let listener = TcpListener::bind(("127.0.0.1", port)).await?;
    println!("{}", listener.local_addr()?.port());
    loop {
        match listener.accept().await {
            Ok((stream, _)) => drop(tokio::spawn(serve(stream))),
            // no file descriptor is left, or the like: the client stays in the queue
            Err(_) => sleep(Duration::from_millis(100)).await,
        }
    }
}
