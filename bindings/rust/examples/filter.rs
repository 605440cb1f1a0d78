//! A proxy of the control connection, of commands that change no file: `filter SERVER [LISTEN]`, each
//! an address with a port. It logs each line, and prints its port. `proxy.rs` also relays downloads.
use std::{env, error::Error, io, time::Duration};
use tokio::net::{TcpListener, TcpStream};
use unftp_control::{Command::*, Event, FtpProxy, ProxyEvent};

/// Relays a session up to the end of one side.
async fn relay(client: TcpStream, server: String) -> Result<(), Box<dyn Error + Send + Sync>> {
    let peer = client.peer_addr()?;
    let mut proxy = FtpProxy::new(client, TcpStream::connect(server).await?);
    while let Some(event) = proxy.next().await? {
        if let ProxyEvent::Line(taken) = &event {
            eprintln!("{peer}: {}", taken.line.log_line()?);
        }
        match event {
            ProxyEvent::Reply(taken) => taken.pass_on(),
            ProxyEvent::Line(taken) => match &taken.line.event {
                Event::Command(User { .. } | Pass { .. } | Quit | Noop | Syst | Type | Pwd)
                | Event::Command(Cwd { .. } | Cdup | Size { .. } | Feat | Help) => {
                    taken.forward()?
                }
                _ => taken.answer_usual(),
            },
        }
    }
    Ok(())
}

#[tokio::main]
async fn main() -> io::Result<()> {
    let mut words = env::args().skip(1);
    let server = words.next().ok_or_else(|| io::Error::other("usage: filter SERVER [LISTEN]"))?;
    let listener = TcpListener::bind(words.next().unwrap_or("127.0.0.1:2122".into())).await?;
    println!("{}", listener.local_addr()?.port());
    loop {
        match listener.accept().await {
            Ok((client, _)) => drop(tokio::spawn(relay(client, server.clone()))),
            Err(_) => tokio::time::sleep(Duration::from_millis(100)).await,
        }
    }
}
