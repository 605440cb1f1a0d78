//! Downloads a file from an FTP server, in binary and by EPSV (RFC 2428), and shows on standard
//! error how far it has come.
//!
//!     cargo run --example get -- HOST PORT USER PASSWORD PATH OUTPUT
use std::error::Error;
use std::fs::File;
use std::io::{self, Read, Write};
use std::net::TcpStream;
use std::process::ExitCode;
use std::time::Duration;
use unftp_control::{find_extended_port, Client, Command, Password, ReceivedReply, To};

/// How long the server may take for anything.
const PATIENCE: Duration = Duration::from_secs(60);

/// The most bytes of a reply.
const REPLY_LIMIT: usize = 16_384;

/// A reply that borrows nothing.
type Reply = ReceivedReply<'static>;

type Outcome<T> = Result<T, Box<dyn Error>>;

/// The reply, where the first digit of its code is one of these.
fn wanted(reply: Reply, digits: &[u16], else_say: &str) -> Outcome<Reply> {
    match digits.contains(&(reply.code() / 100)) {
        true => Ok(reply),
        false => Err(format!("{else_say}: {reply}").into()),
    }
}

/// A control connection.
struct Control {
    stream: TcpStream,
    client: Client,
}

impl Control {
    /// Connects to a server, and waits for its greeting.
    fn connect(host: &str, port: u16) -> Outcome<Control> {
        let client = Client::with_limit(REPLY_LIMIT);
        let mut control = Control { stream: connect(host, port)?, client };
        wanted(control.final_reply()?, &[2], "no session")?;
        Ok(control)
    }

    /// The next complete reply of what was received. One that nobody asked for is an error.
    fn received_reply(&mut self) -> Outcome<Option<Reply>> {
        let Some(taken) = self.client.next_reply()? else { return Ok(None) };
        let reply = taken.reply.into_owned();
        if taken.to != To::Nothing {
            return Ok(Some(reply));
        }
        let what = match reply.code() {
            421 => "the server ends the session",
            _ => "a reply to nothing",
        };
        wanted(reply, &[], what).map(Some)
    }

    /// The next reply.
    fn reply(&mut self) -> Outcome<Reply> {
        let mut piece = [0; 4096];
        loop {
            if let Some(reply) = self.received_reply()? {
                return Ok(reply);
            }
            match self.stream.read(&mut piece)? {
                0 => return Err("the server has closed the connection".into()),
                count => self.client.receive(&piece[..count])?,
            }
        }
    }

    /// The next final reply: those before it are preliminary.
    fn final_reply(&mut self) -> Outcome<Reply> {
        loop {
            let reply = self.reply()?;
            if !reply.is_preliminary() {
                return Ok(reply);
            }
        }
    }

    /// Sends a command, once each earlier one has its replies and no other came.
    fn send(&mut self, command: &Command) -> Outcome<()> {
        self.received_reply()?;
        let mut line = Vec::new();
        self.client.send(command, &mut line)?;
        Ok(self.stream.write_all(&line)?)
    }

    /// Sends a command, and returns the final reply to it.
    fn ask(&mut self, command: &Command) -> Outcome<Reply> {
        self.send(command)?;
        self.final_reply()
    }

    fn log_in(&mut self, name: &str, password: &str) -> Outcome<()> {
        let user = self.ask(&Command::User { username: name.into() })?;
        if wanted(user, &[2, 3], "login failed")?.code() / 100 == 3 {
            let pass = self.ask(&Command::Pass { password: Password::from(password) })?;
            wanted(pass, &[2], "login failed")?;
        }
        Ok(())
    }

    /// The size of a file, where the server says it.
    fn size(&mut self, path: &str) -> Outcome<Option<u64>> {
        let reply = self.ask(&Command::Size { file: path.into() })?;
        let text = reply.to_string();
        Ok(text.strip_prefix("213 ").and_then(|size| size.parse().ok()))
    }

    /// Where the server listens for the data connection.
    fn passive_port(&mut self) -> Outcome<u16> {
        let reply = wanted(self.ask(&Command::Epsv)?, &[2], "no passive mode")?;
        let port = reply.lines().find_map(find_extended_port).filter(|port| *port != 0);
        port.ok_or_else(|| format!("no port: {reply}").into())
    }

    /// Writes a file of the server to a new one.
    fn download(&mut self, host: &str, path: &str, output: &str) -> Outcome<()> {
        wanted(self.ask(&Command::Type)?, &[2], "no binary mode")?;
        let size = self.size(path)?;
        let mut data = connect(host, self.passive_port()?)?;
        self.send(&Command::Retr { path: path.into() })?;
        wanted(self.reply()?, &[1], path)?;
        let count = copy(&mut data, &mut File::create(output)?, size)?;
        drop(data);
        wanted(self.final_reply()?, &[2], path)?;
        match size {
            Some(size) if count < size => {
                Err(format!("{path}: only {count} of {size} bytes came").into())
            }
            _ => Ok(()),
        }
    }
}

fn connect(host: &str, port: u16) -> io::Result<TcpStream> {
    let stream = TcpStream::connect((host, port))?;
    stream.set_read_timeout(Some(PATIENCE))?;
    stream.set_write_timeout(Some(PATIENCE))?;
    Ok(stream)
}

/// Copies all bytes, shows how many there are so far, and returns how many there were.
fn copy(data: &mut impl Read, output: &mut impl Write, size: Option<u64>) -> Outcome<u64> {
    let (mut piece, mut count) = ([0; 65536], 0);
    loop {
        show(count, size);
        match data.read(&mut piece)? {
            0 => break,
            read => {
                output.write_all(&piece[..read])?;
                count += read as u64;
            }
        }
    }
    eprintln!();
    output.flush()?;
    Ok(count)
}

fn show(count: u64, size: Option<u64>) {
    match size {
        Some(0) => eprint!("\r{count} bytes, 100%"),
        Some(size) => eprint!("\r{count} bytes, {}%", u128::from(count) * 100 / u128::from(size)),
        None => eprint!("\r{count} bytes"),
    }
}

fn run(arguments: &[String]) -> Outcome<()> {
    let [host, port, name, password, path, output] = arguments else {
        return Err("usage: get HOST PORT USER PASSWORD PATH OUTPUT".into());
    };
    if [name, password, path].iter().any(|word| word.contains(['\r', '\n'])) {
        return Err("a name, a password and a path are of one line".into());
    }
    let mut control = Control::connect(host, port.parse()?)?;
    control.log_in(name, password)?;
    control.download(host, path, output)?;
    // the file is there, whatever the server says to this
    let _ = control.ask(&Command::Quit);
    Ok(())
}

fn main() -> ExitCode {
    let arguments: Vec<String> = std::env::args().skip(1).collect();
    match run(&arguments) {
        Ok(()) => ExitCode::SUCCESS,
        Err(error) => {
            eprintln!("get: {error}");
            ExitCode::FAILURE
        }
    }
}
