//! A recorder before an FTP server: `ftp-record [OPTIONS] --output FILE SERVER`. It relays as `ftp-proxy`
//! does, refuses no verb that can be relayed, and appends a line to the file for each exchange: an
//! [`Exchange`] as an object of JSON. That has the line as a log shows it, so not what PASS has, and
//! no text of a reply to a line of which a part is hidden.
use std::io::{self, Write};
use std::path::{Path, PathBuf};
use std::process::ExitCode;
use tokio::fs::{File, OpenOptions};
use tokio::io::{AsyncWriteExt, BufWriter};
use tokio::sync::mpsc;
use unftp_control_programs::options::{path, Common};
use unftp_control_programs::relay::command_line::{command, run};
use unftp_control_programs::relay::exchange::Exchange;
use unftp_control_programs::relay::rules::Allowed;

/// How many exchanges may wait to be written, before the sessions wait.
const WAITING: usize = 1024;

async fn open(path: &Path) -> io::Result<File> {
    OpenOptions::new().create(true).append(true).open(path).await
}

/// Writes each exchange, and flushes where none waits.
async fn write(file: File, mut exchanges: mpsc::Receiver<Exchange>) -> io::Result<()> {
    let mut file = BufWriter::new(file);
    while let Some(exchange) = exchanges.recv().await {
        let mut next = Some(exchange);
        while let Some(exchange) = next {
            let mut line = serde_json::to_vec(&exchange)?;
            line.push(b'\n');
            file.write_all(&line).await?;
            next = exchanges.try_recv().ok();
        }
        file.flush().await?;
    }
    Ok(())
}

async fn record(matches: &clap::ArgMatches) -> io::Result<()> {
    let output = matches.get_one::<PathBuf>("output").ok_or(io::ErrorKind::InvalidInput)?;
    Common::of(matches).identity.set_umask();
    let (sender, exchanges) = mpsc::channel(WAITING);
    let mut writing = tokio::spawn(write(open(output).await?, exchanges));
    tokio::select! {
        ran = run(matches, Allowed::All, Some(sender)) => ran?,
        // without its record, it ends at once
        written = &mut writing => return written?,
    }
    // the sender was dropped with the relay, and then the last exchange is written
    writing.await?
}

#[tokio::main]
async fn main() -> ExitCode {
    let output = path("output", "FILE", "The file to append to").required(true);
    let matches =
        command("ftp-record", "A recorder before an FTP server").arg(output).get_matches();
    if let Err(error) = record(&matches).await {
        let _ = writeln!(io::stderr(), "ftp-record: {error}");
        return ExitCode::FAILURE;
    }
    ExitCode::SUCCESS
}
