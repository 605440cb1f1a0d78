//! A proxy that changes no files: `proxy SERVER [LISTEN]`, each an address with a port. It sends the
//! server only clear lines of some commands, and answers the others. It relays the data connections
//! of EPSV and PASV, and prints its port. `ftp-proxy`, in `programs`, has TLS, a log and limits too.
use std::{env, error::Error, io, time::Duration};
use tokio::io::copy;
use tokio::net::{TcpListener, TcpStream};
use unftp_control::{find_extended_port, Command::*, DataPort, Event, FtpProxy, ProxyEvent, To};

/// How long either side may take to open a data connection.
const OPENING: Duration = Duration::from_secs(30);

/// Relays a download, however long it takes. One that is cut is reset, so that its file doesn't look
/// whole.
async fn relay_data(mut client: TcpStream, mut server: TcpStream) -> io::Result<()> {
    client.set_linger(Some(Duration::ZERO))?;
    copy(&mut server, &mut client).await?;
    client.set_linger(None)
}

/// Relays a session up to the end of one side.
async fn relay(client: TcpStream, server: String) -> Result<(), Box<dyn Error + Send + Sync>> {
    let server = TcpStream::connect(server).await?;
    let mut to_client = DataPort::new(client.peer_addr()?, client.local_addr()?);
    let mut to_server = DataPort::new(server.peer_addr()?, server.local_addr()?);
    let mut proxy = FtpProxy::new(client, server);
    while let Some(event) = proxy.next().await? {
        match event {
            ProxyEvent::Line(taken) => match &taken.line.event {
                Event::Command(Pasv | Epsv) => taken.forward_as(b"EPSV\r\n")?,
                Event::Command(User { .. } | Pass { .. } | Quit | Noop | Syst | Type | Pwd)
                | Event::Command(Cwd { .. } | Cdup | List { .. } | Nlst { .. } | Retr { .. }) => {
                    taken.forward()?;
                }
                _ => taken.answer_usual(),
            },
            ProxyEvent::Reply(taken) if taken.reply.code() != 229 => taken.pass_on(),
            ProxyEvent::Reply(taken) => {
                let To::Command(line) = &taken.to else {
                    return Err("a 229 as the greeting".into());
                };
                let reply = to_client.answer(line).ok_or("a 229 to another command")?;
                let port = taken.reply.lines().find_map(find_extended_port);
                to_server.connect_to(port.ok_or("a 229 without a port")?);
                let (near, far) = (to_client.open(OPENING), to_server.open(OPENING));
                tokio::spawn(async move { relay_data(near.await?, far.await?).await });
                taken.replace(reply)?;
            }
        }
    }
    Ok(())
}

#[tokio::main]
async fn main() -> io::Result<()> {
    let mut words = env::args().skip(1);
    let server = words.next().ok_or_else(|| io::Error::other("usage: proxy SERVER [LISTEN]"))?;
    let listener = TcpListener::bind(words.next().unwrap_or("127.0.0.1:2122".into())).await?;
    println!("{}", listener.local_addr()?.port());
    loop {
        match listener.accept().await {
            Ok((client, _)) => drop(tokio::spawn(relay(client, server.clone()))),
            Err(_) => tokio::time::sleep(Duration::from_millis(100)).await,
        }
    }
}
