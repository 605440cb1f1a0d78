//! Lists a folder of an FTP server, or prints a file of it: `list HOST PORT USER PASSWORD [FILE]`.
//! `transfer.rs` also stores, and says what the two replies of a transfer are for.
use std::error::Error;
use std::io::{self, Write};
use std::{env, time::Duration};
use tokio::io::AsyncReadExt;
use tokio::net::TcpStream;
use unftp_control::{Command, FtpClient, NameLine};

#[tokio::main]
async fn main() -> Result<(), Box<dyn Error>> {
    let words: Vec<String> = env::args().skip(1).collect();
    let [host, port, user, password, names @ ..] = words.as_slice() else {
        return Err("usage: list HOST PORT USER PASSWORD [FILE]".into());
    };
    let line = match names.first() {
        Some(file) => NameLine("RETR", file.as_bytes()),
        None => NameLine("LIST", b""),
    };
    let mut client = FtpClient::new(TcpStream::connect((host.as_str(), port.parse()?)).await?);
    client.greeting().await?.completed()?;
    client.log_in(user, password).await?;
    client.ask(Command::Type).await?.completed()?;
    let mut data = client.passive(Duration::from_secs(30)).await?;
    client.begin(line).await?;
    let mut bytes = Vec::new();
    data.read_to_end(&mut bytes).await?;
    client.finish().await?.completed()?;
    io::stdout().write_all(&bytes)?;
    client.ask(Command::Quit).await?;
    Ok(())
}
