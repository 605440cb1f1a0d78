//! A server of files in memory: `memory [ADDRESS:PORT]`. Who logs in as anna with the password
//! secret may list, read, store and delete them. It bounds a file, and not their number. It prints
//! its port, and logs each line.
use std::collections::BTreeMap;
use std::io::{self, Cursor, ErrorKind};
use std::sync::{Arc, Mutex, PoisonError};
use std::{env, time::Duration, time::SystemTime};
use tokio::net::{TcpListener, TcpStream};
use tokio::time::{sleep, timeout};
use unftp_control::{
    list_line, CodecError, Command::*, Event, FileKind, FileStatus, FtpServer, LineRequest, Reply,
    ReplyCode as Code, Request, Transfer,
};

/// How long a client may take until its next line.
const PATIENCE: Duration = Duration::from_secs(60);
/// How many bytes a file may have.
const MOST: usize = 1 << 20;

/// The files of all clients, by name.
#[derive(Clone, Default)]
struct Files(Arc<Mutex<BTreeMap<Vec<u8>, Vec<u8>>>>);

impl Files {
    fn with<T>(&self, call: impl FnOnce(&mut BTreeMap<Vec<u8>, Vec<u8>>) -> T) -> T {
        call(&mut self.0.lock().unwrap_or_else(PoisonError::into_inner))
    }

    fn get(&self, name: &[u8]) -> io::Result<Vec<u8>> {
        self.with(|files| files.get(name).cloned()).ok_or(ErrorKind::NotFound.into())
    }

    /// The lines of LIST, or of NLST.
    fn lines(&self, is_long: bool) -> io::Result<Vec<u8>> {
        let (kind, modified, mut lines) = (FileKind::File, None, Vec::new());
        self.with(|files| {
            for (name, bytes) in files.iter() {
                let size = bytes.len() as u64;
                let file =
                    FileStatus { kind, mode: 0o644, links: 1, uid: 0, gid: 0, size, modified };
                match is_long {
                    true => lines.extend(list_line(&file, SystemTime::now(), name)?),
                    false => lines.extend([name, &b"\r\n"[..]].concat()),
                }
            }
            Ok(lines)
        })
        .map_err(|error: unftp_control::Error| io::Error::other(error))
    }
}

async fn answer(request: LineRequest<'_>, files: &Files) -> Result<(), CodecError> {
    let name = request.line.parameter().unwrap_or_default();
    let name = name.strip_prefix(b"/").unwrap_or(&name).to_vec();
    let no_file = Reply::new(Code::FILE_ERROR, "No such file");
    match &request.line.event {
        Event::Command(Type) => request.reply(Reply::new(Code::COMMAND_OKAY, "OK")).await,
        Event::Command(Pwd) => request.reply(Reply::directory(b"/")?).await,
        Event::Command(Cwd { .. }) if name.is_empty() => {
            request.reply(Reply::new(Code::FILE_ACTION_OKAY, "OK")).await
        }
        Event::Command(List { .. } | Nlst { .. }) => {
            let lines = files.lines(matches!(request.line.event, Event::Command(List { .. })));
            request.send_data(async { lines.map(Cursor::new) }).await.map(drop)
        }
        Event::Command(Retr { .. }) => {
            request.send_data(async { files.get(&name).map(Cursor::new) }).await.map(drop)
        }
        Event::Command(Stor { .. }) => {
            let mut file = Cursor::new(vec![0; MOST].into_boxed_slice());
            let transfer = request.receive_data(async { Ok(&mut file) }).await?;
            if let Transfer::Complete { bytes } = transfer {
                let file = file.into_inner()[..bytes as usize].to_vec();
                files.with(|files| files.insert(name, file));
            }
            Ok(())
        }
        Event::Command(Size { .. }) => match files.get(&name) {
            Ok(bytes) => {
                request.reply(Reply::new(Code::FILE_STATUS, bytes.len().to_string())).await
            }
            Err(_) => request.reply(no_file).await,
        },
        Event::Command(Dele { .. }) => match files.with(|files| files.remove(&name)) {
            Some(_) => request.reply(Reply::new(Code::FILE_ACTION_OKAY, "Deleted")).await,
            None => request.reply(no_file).await,
        },
        _ => request.reply_usual().await,
    }
}

/// Answers lines up to QUIT, the client's end, or a minute of silence.
async fn serve(control: TcpStream, files: Files) -> Result<(), CodecError> {
    let mut server = FtpServer::new(control)?.on_line(|client, line| eprintln!("{client}: {line}"));
    while let Ok(request) = timeout(PATIENCE, server.next()).await {
        match request? {
            Some(Request::Login(login)) => {
                let accepted = login.name == b"anna" && login.password.as_bytes() == b"secret";
                login.answer(accepted).await?;
            }
            Some(Request::Line(request)) => answer(request, &files).await?,
            None => return Ok(()),
        }
    }
    server.close(Reply::new(Code::SERVICE_NOT_AVAILABLE, "No command came for too long")).await
}

#[tokio::main]
async fn main() -> io::Result<()> {
    let place = env::args().nth(1).unwrap_or("127.0.0.1:2121".into());
    let (listener, files) = (TcpListener::bind(place).await?, Files::default());
    println!("{}", listener.local_addr()?.port());
    loop {
        match listener.accept().await {
            Ok((control, _)) => drop(tokio::spawn(serve(control, files.clone()))),
            Err(_) => sleep(Duration::from_millis(100)).await, // no descriptor is left, or the like
        }
    }
}
