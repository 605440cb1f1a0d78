//! A server of a folder: `files [FOLDER [ADDRESS:PORT]]`. Who logs in by `ACCOUNT` may list, read
//! and write its files. It follows links. `ftpd`, in `programs`, has users, TLS and limits too.
use std::{env, ffi::OsStr, io, io::Cursor, os::unix::ffi::OsStrExt, path::Path, process, time};
use tokio::{fs, fs::File, net::TcpListener, net::TcpStream, time::sleep};
use unftp_control::{
    list_line, CodecError, Command::*, Error, Event, FileStatus, FtpServer, LineRequest, Reply,
    ReplyCode as Code, Request,
};

/// The name and the password that it takes.
const ACCOUNT: (&[u8], &[u8]) = (b"anna", b"secret");

/// Answers lines up to QUIT, or the client's end. ABOR may end in urgent data.
async fn serve(control: TcpStream, folder: String) -> Result<(), CodecError> {
    socket2::SockRef::from(&control).set_out_of_band_inline(true)?;
    let mut server = FtpServer::new(control)?.on_line(|client, line| eprintln!("{client}: {line}"));
    while let Some(request) = server.next().await? {
        match request {
            Request::Login(login) => {
                let accepted = (&*login.name, login.password.as_bytes()) == ACCOUNT;
                login.answer(accepted).await?;
            }
            Request::Line(request) => answer(request, Path::new(&folder)).await?,
        }
    }
    Ok(())
}

async fn answer(request: LineRequest<'_>, folder: &Path) -> Result<(), CodecError> {
    let name = request.line.parameter().unwrap_or_default();
    let name = OsStr::from_bytes(name.strip_prefix(b"/").unwrap_or(&name));
    let (path, is_of_folder) = (folder.join(name), Path::new(name).file_name() == Some(name));
    let no_file = Reply::new(Code::FILE_ERROR, "No such file");
    match &request.line.event {
        Event::Command(Type) => request.reply(Reply::new(Code::COMMAND_OKAY, "OK")).await,
        Event::Command(Pwd) => request.reply(Reply::directory(b"/")?).await,
        Event::Command(List { .. }) => request.send_data(list(folder, true)).await.map(drop),
        Event::Command(Nlst { .. }) => request.send_data(list(folder, false)).await.map(drop),
        Event::Command(Retr { .. } | Stor { .. }) if !is_of_folder => request.reply(no_file).await,
        Event::Command(Retr { .. }) => request.send_data(File::open(path)).await.map(drop),
        Event::Command(Stor { .. }) => request.receive_data(File::create(path)).await.map(drop),
        _ => request.reply_usual().await,
    }
}

/// The lines of LIST, or of NLST, without the files whose name no line can have.
async fn list(folder: &Path, is_long: bool) -> io::Result<Cursor<Vec<u8>>> {
    let (mut lines, mut entries) = (Vec::new(), fs::read_dir(folder).await?);
    while let Some(entry) = entries.next_entry().await? {
        let (metadata, name) = (entry.metadata().await?, entry.file_name());
        let file = FileStatus { uid: 0, gid: 0, ..FileStatus::from(&metadata) };
        match list_line(&file, time::SystemTime::now(), name.as_bytes()) {
            Ok(line) if metadata.is_file() && is_long => lines.extend(line),
            Ok(_) if metadata.is_file() => lines.extend([name.as_bytes(), b"\r\n"].concat()),
            Ok(_) | Err(Error::InvalidName) => {}
            Err(error) => return Err(io::Error::other(error)),
        }
    }
    Ok(Cursor::new(lines))
}

/// Serves clients. It only ends by an error.
async fn run(folder: &str, place: &str) -> Result<(), String> {
    drop(fs::read_dir(folder).await.map_err(|error| format!("{folder}: {error}"))?);
    let listener = TcpListener::bind(place).await.map_err(|error| format!("{place}: {error}"))?;
    println!("{}", listener.local_addr().map_or(0, |own| own.port()));
    loop {
        match listener.accept().await {
            Ok((control, _)) => drop(tokio::spawn(serve(control, folder.into()))),
            Err(_) => sleep(time::Duration::from_millis(100)).await, // no descriptor is left
        }
    }
}

#[tokio::main]
async fn main() {
    let words: Vec<_> = env::args().skip(1).collect();
    let word = |at, default| words.get(at).map_or(default, String::as_str);
    let Err(error) = run(word(0, "."), word(1, "127.0.0.1:2121")).await else { return };
    eprintln!("files: {error}");
    process::exit(1);
}
