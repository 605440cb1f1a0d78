//! Asks an FTP server, and prints what it answers: `ask HOST PORT LINE..`, as in
//! `ask 127.0.0.1 2121 SYST 'USER anna' QUIT`. It is for lines that transfer nothing:
//! `transfer.rs` is for those that do.
use std::process::ExitCode;
use tokio::net::TcpStream;
use unftp_control::{Answer, ClientError, CodecError, FtpClient};

fn show(answer: &Answer) {
    for reply in answer.preliminary.iter().chain([&answer.reply]) {
        println!("{reply}");
    }
}

/// Prints the greeting, and what the server answers to each line.
async fn run(address: (&str, u16), lines: &[String]) -> Result<(), ClientError> {
    let stream = TcpStream::connect(address).await.map_err(CodecError::from)?;
    let mut client = FtpClient::new(stream);
    show(&client.greeting().await?);
    for line in lines {
        show(&client.ask(format!("{line}\r\n").into_bytes()).await?);
    }
    Ok(())
}

#[tokio::main]
async fn main() -> ExitCode {
    let words: Vec<String> = std::env::args().skip(1).collect();
    let address = match words.as_slice() {
        [host, port, ..] => port.parse().ok().map(|port| (host.as_str(), port)),
        _ => None,
    };
    let Some(address) = address else {
        eprintln!("usage: ask HOST PORT LINE..");
        return ExitCode::from(2);
    };
    match run(address, &words[2..]).await {
        Ok(()) => ExitCode::SUCCESS,
        Err(error) => {
            eprintln!("ask: {error}");
            ExitCode::FAILURE
        }
    }
}
