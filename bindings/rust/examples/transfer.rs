//! Lists, gets and puts files of an FTP server, in binary and in passive mode:
//!
//!     transfer HOST PORT USER PASSWORD list [PATH]
//!     transfer HOST PORT USER PASSWORD get PATH FILE
//!     transfer HOST PORT USER PASSWORD put FILE PATH
//!
//! A transfer has two replies, and the data passes between them. The preliminary one, as 150, says
//! that the server uses the data connection. The final one, as 226 or 426, says whether all of the
//! data has passed. Where the first reply is the final one already, as 550 for a file that is not
//! there, the server uses no data connection: a client that reads it all the same may wait forever.
use std::error::Error;
use std::ffi::OsString;
use std::io::{self, Write};
use std::os::unix::ffi::OsStrExt;
use std::process::ExitCode;
use std::time::Duration;
use tokio::fs::File;
use tokio::io::{copy, AsyncReadExt, AsyncWriteExt};
use tokio::net::TcpStream;
use unftp_control::{Command, FtpClient, NameLine};

/// How long the server may take for a data connection.
const PATIENCE: Duration = Duration::from_secs(30);

type Outcome = Result<(), Box<dyn Error>>;

/// What becomes of the data.
enum Data {
    Show,
    Save(OsString),
    Send(File),
}

impl Data {
    /// Reads the data connection to its end, or writes to it and ends it.
    async fn pass(self, mut connection: TcpStream) -> io::Result<()> {
        match self {
            Data::Show => {
                let mut listing = Vec::new();
                connection.read_to_end(&mut listing).await?;
                io::stdout().write_all(&listing)
            }
            Data::Save(file) => {
                let mut file = File::create(file).await?;
                copy(&mut connection, &mut file).await?;
                file.flush().await
            }
            Data::Send(mut file) => {
                copy(&mut file, &mut connection).await?;
                connection.shutdown().await
            }
        }
    }
}

/// Makes a data connection, sends the line, and passes the data once the server says so.
async fn transfer(client: &mut FtpClient<TcpStream>, line: NameLine<'_>, data: Data) -> Outcome {
    let connection = client.passive(PATIENCE).await?;
    client.begin(line).await?;
    let passed = data.pass(connection).await;
    // the server's reason says more than that the data connection was lost
    client.finish().await?.completed()?;
    Ok(passed?)
}

async fn run(words: Vec<OsString>) -> Outcome {
    const USAGE: &str = "usage: transfer HOST PORT USER PASSWORD list|get|put NAME..";
    let [host, port, user, password, action, names @ ..] = words.as_slice() else {
        return Err(USAGE.into());
    };
    let (line, data) = match (action.as_bytes(), names) {
        (b"list", []) => (NameLine("LIST", b""), Data::Show),
        (b"list", [path]) => (NameLine("LIST", path.as_bytes()), Data::Show),
        (b"get", [path, file]) => (NameLine("RETR", path.as_bytes()), Data::Save(file.clone())),
        (b"put", [file, path]) => {
            (NameLine("STOR", path.as_bytes()), Data::Send(File::open(file).await?))
        }
        _ => return Err(USAGE.into()),
    };
    let port = port.to_str().ok_or(USAGE)?.parse()?;
    let stream = TcpStream::connect((host.to_str().ok_or(USAGE)?, port)).await?;
    let mut client = FtpClient::new(stream);
    client.greeting().await?.completed()?;
    client.log_in(user.as_bytes(), password.as_bytes()).await?;
    client.ask(Command::Type).await?.completed()?;
    transfer(&mut client, line, data).await?;
    client.ask(Command::Quit).await?;
    Ok(())
}

#[tokio::main]
async fn main() -> ExitCode {
    match run(std::env::args_os().skip(1).collect()).await {
        Ok(()) => ExitCode::SUCCESS,
        Err(error) => {
            eprintln!("transfer: {error}");
            ExitCode::FAILURE
        }
    }
}
