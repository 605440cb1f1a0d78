//! A proxy before an FTP server: `ftp-proxy [OPTIONS] SERVER`. It sends the server only lines of verbs
//! that it allows, and relays data connections. With a certificate it speaks TLS to clients that
//! ask for it. It prints its ports as one line, and logs each exchange on standard error.
use std::io::{self, Write};
use std::process::ExitCode;
use unftp_control_programs::options::{flag, option};
use unftp_control_programs::relay::command_line::{command, run};
use unftp_control_programs::relay::rules::Allowed;

#[tokio::main]
async fn main() -> ExitCode {
    let allow = option("allow", "VERB,VERB", "Send only lines of these verbs")
        .value_delimiter(',')
        .conflicts_with("read-only");
    let read_only = flag("read-only", "Send only lines that log in, ask, or read");
    let about = "A proxy before an FTP server";
    let matches = command("ftp-proxy", about).arg(allow).arg(read_only).get_matches();
    let allowed = match matches.get_many::<String>("allow") {
        Some(verbs) => Allowed::list(verbs.map(String::as_str)),
        None if matches.get_flag("read-only") => Allowed::reading(),
        None => Allowed::known(),
    };
    if let Err(error) = run(&matches, allowed, None).await {
        let _ = writeln!(io::stderr(), "ftp-proxy: {error}");
        return ExitCode::FAILURE;
    }
    ExitCode::SUCCESS
}
