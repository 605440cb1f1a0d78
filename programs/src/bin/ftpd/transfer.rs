//! What is sent and received over a data connection.
use crate::data::DataStream;
use crate::folder::FilePath;
use crate::listing::Listing;
use crate::replies;
use crate::representation::{Representation, Sink};
use crate::upload::Target;
use rustix::fs::{sendfile, Stat};
use rustix::io::{preadv2, Errno, ReadWriteFlags};
use std::fmt::{self, Display, Formatter};
use std::fs::File;
use std::future::Future;
use std::io::{self, ErrorKind, IoSliceMut, Read, Seek, SeekFrom, Write};
use std::mem;
use std::net::TcpStream;
use std::sync::atomic::{AtomicU64, Ordering};
use std::sync::Arc;
use std::time::{Duration, Instant};
use tokio::sync::Notify;
use tokio::task::spawn_blocking;
use unftp_control::{Reply, ReplyCode as Code};
use unftp_control_programs::tls::OfConnection;

/// How many bytes of a file are read or written at a time.
const PART: usize = 256 * 1024;
/// So many bytes have to come of an upload in so many times in which it may stand still.
const LEAST: usize = 1024;
const STALLS: u32 = 5;
/// A file of no more bytes is sent at once: a new connection takes so many without a wait.
const SMALL: u64 = 16 * 1024;

/// What a transfer does.
pub enum Work {
    /// Sends a file from an offset on, after which it has so many bytes.
    Send { file: File, offset: u64, size: u64, representation: Representation },
    /// Sends bytes.
    SendBytes(Vec<u8>),
    /// Sends a listing.
    List(Box<Listing>),
    /// Receives a file.
    Receive { target: Target, start: Start, representation: Representation },
}

/// Where a received file begins.
#[derive(Clone, Copy, Debug, PartialEq, Eq)]
pub enum Start {
    /// At an offset. What the file has after it is lost, once the data connection is open.
    Offset(u64),
    /// At its end.
    End,
}

/// Why a transfer fails.
#[derive(Debug)]
pub enum Fault {
    /// No data connection could be opened.
    NoConnection(io::Error),
    /// One could be opened, and didn't turn to TLS.
    Handshake(io::Error),
    /// No file could be made.
    NoFile(io::Error),
    /// The data connection broke.
    Connection(io::Error),
    /// The file could not be read or written.
    File(io::Error),
}

impl Fault {
    /// The reply to the transfer.
    pub fn reply(&self) -> Reply {
        match self {
            Fault::NoConnection(_) => {
                Reply::new(Code::CANT_OPEN_DATA_CONNECTION, "Can't open the data connection")
            }
            Fault::Handshake(_) => {
                let text = "No TLS, which has to resume the session of this connection";
                Reply::new(Code::CANT_OPEN_DATA_CONNECTION, text)
            }
            Fault::NoFile(error) => replies::of_error(error),
            Fault::Connection(error)
                if matches!(error.kind(), ErrorKind::TimedOut | ErrorKind::WouldBlock) =>
            {
                Reply::new(Code::CONNECTION_CLOSED, "The data connection stood still")
            }
            Fault::Connection(_) => {
                Reply::new(Code::CONNECTION_CLOSED, "The data connection was closed")
            }
            Fault::File(error) => replies::of_transfer_error(error),
        }
    }
}

/// For a log.
impl Display for Fault {
    fn fmt(&self, f: &mut Formatter<'_>) -> fmt::Result {
        match self {
            Fault::NoConnection(error) => write!(f, "no data connection: {error}"),
            Fault::Handshake(error) => write!(f, "the TLS handshake: {error}"),
            Fault::NoFile(error) => write!(f, "no file: {error}"),
            Fault::Connection(error) => write!(f, "the data connection: {error}"),
            Fault::File(error) => write!(f, "the file: {error}"),
        }
    }
}

/// A transfer.
pub struct Transfer {
    /// What turns the data connection to TLS, where it is to be private.
    pub tls: Option<Arc<OfConnection>>,
    /// How long TLS may take to begin, and the transfer may then stand still.
    pub stall: Duration,
    /// How many bytes were sent or received.
    pub count: Arc<AtomicU64>,
}

impl Transfer {
    /// Opens the data connection, does the work, and closes it. Where that is not done at once, a
    /// thread of its own waits for the client and for the disk. It ends with the connection, which
    /// is lost where this is dropped, or told to abort.
    pub async fn run(
        self,
        opening: impl Future<Output = io::Result<TcpStream>>,
        work: Work,
        abort: &Notify,
    ) -> Result<(), Fault> {
        let opened = tokio::select! {
            opened = self.open(opening) => opened,
            () = abort.notified() => {
                Err(Fault::NoConnection(ErrorKind::ConnectionAborted.into()))
            }
        };
        let stream = match opened {
            Ok(stream) => stream,
            Err(fault) => {
                // to close a file may take as long as to open it
                spawn_blocking(move || drop(work));
                return Err(fault);
            }
        };
        let mut transfer = OpenTransfer { stream, count: self.count, stall: self.stall };
        let Some(work) = transfer.send_at_once(work)? else { return Ok(()) };
        transfer.stream.wait_at_most(self.stall).map_err(Fault::Connection)?;
        let hang_up = transfer.stream.hang_up();
        let mut running = spawn_blocking(move || transfer.run(work));
        let done = tokio::select! {
            done = &mut running => done,
            () = abort.notified() => {
                drop(hang_up);
                running.await
            }
        };
        done.unwrap_or_else(|error| Err(Fault::File(error.into())))
    }

    async fn open(
        &self,
        opening: impl Future<Output = io::Result<TcpStream>>,
    ) -> Result<DataStream, Fault> {
        let tcp = opening.await.map_err(Fault::NoConnection)?;
        let Some(tls) = &self.tls else { return Ok(DataStream::clear(tcp)) };
        DataStream::accept_tls(tcp, tls, self.stall).await.map_err(Fault::Handshake)
    }
}

impl Work {
    /// The path of a file that is to be made.
    pub fn path(&self) -> Option<&FilePath> {
        match self {
            Work::Receive { target, .. } => target.path(),
            _ => None,
        }
    }

    /// What is sent, where that is little and the kernel has it in memory: to send it takes less
    /// time than another thread takes to begin.
    fn in_memory(&self) -> Option<Vec<u8>> {
        let Work::Send { file, offset, size: size @ 0..=SMALL, representation } = self else {
            return None;
        };
        // one more, since some files, as those of /proc, have more than they say
        let mut bytes = vec![0; *size as usize + 1];
        let area = &mut [IoSliceMut::new(&mut bytes)];
        let count = preadv2(file, area, *offset, ReadWriteFlags::NOWAIT).ok()?;
        bytes.truncate(count);
        (count as u64 == *size).then(|| representation.sent(bytes))
    }
}

/// A transfer over an open connection, in a thread of its own.
struct OpenTransfer {
    stream: DataStream,
    count: Arc<AtomicU64>,
    stall: Duration,
}

impl OpenTransfer {
    /// Sends a small file in clear text that the kernel has in memory, as far as the connection
    /// takes it without a wait, and returns what is left to be done.
    fn send_at_once(&mut self, work: Work) -> Result<Option<Work>, Fault> {
        let in_memory = if self.stream.is_tls() { None } else { work.in_memory() };
        let Some(mut bytes) = in_memory else { return Ok(Some(work)) };
        match self.stream.write(&bytes) {
            Ok(count) => {
                self.count(count);
                bytes.drain(..count);
            }
            Err(error) if error.kind() == ErrorKind::WouldBlock => {}
            Err(error) => return Err(Fault::Connection(error)),
        }
        if !bytes.is_empty() {
            return Ok(Some(Work::SendBytes(bytes)));
        }
        self.stream.finish().map_err(Fault::Connection)?;
        Ok(self.stream.has_unread().then(|| Work::SendBytes(bytes)))
    }

    fn run(mut self, work: Work) -> Result<(), Fault> {
        match work {
            Work::Send { file, mut offset, size, representation } => {
                let end = offset + size;
                let is_unchanged = representation == Representation::Image && !self.stream.is_tls();
                if is_unchanged && self.send_file(&file, &mut offset, end)? {
                    return self.finish();
                }
                self.copy_file(file, offset, end, representation)
            }
            Work::SendBytes(mut bytes) => self.send(|part| {
                mem::swap(part, &mut bytes);
                Ok(())
            }),
            Work::List(mut listing) => self.send(|part| listing.next_part(part)),
            Work::Receive { target, start, representation } => {
                let upload = target.open().map_err(Fault::NoFile)?;
                self.receive(Sink::new(upload, start, representation).map_err(Fault::File)?)
            }
        }
    }

    /// Lets the kernel send a file from the offset on, and moves the offset. When the transfer began
    /// the file had its end there. Returns whether all is sent: not every file can be sent so.
    fn send_file(&mut self, file: &File, offset: &mut u64, end: u64) -> Result<bool, Fault> {
        loop {
            match sendfile(self.stream.tcp(), file, Some(offset), PART) {
                Ok(0) if *offset < end => return Err(Fault::File(cut_file())),
                Ok(0) => return Ok(true),
                Ok(count) => self.count(count),
                Err(Errno::INTR) => {}
                // as some files of /proc and of file systems in user space
                Err(Errno::INVAL) => return Ok(false),
                Err(Errno::IO) => return Err(Fault::File(Errno::IO.into())),
                Err(error) => return Err(Fault::Connection(error.into())),
            }
        }
    }

    /// Reads a file from an offset on and sends it. When the transfer began it had its end there.
    fn copy_file(
        &mut self,
        mut file: File,
        offset: u64,
        end: u64,
        representation: Representation,
    ) -> Result<(), Fault> {
        file.seek(SeekFrom::Start(offset)).map_err(Fault::File)?;
        let mut size = end.saturating_sub(offset);
        self.send(|part| {
            let count = (&file).take(PART as u64).read_to_end(part)? as u64;
            if count == 0 && size > 0 {
                return Err(cut_file());
            }
            size = size.saturating_sub(count);
            *part = representation.sent(mem::take(part));
            Ok(())
        })
    }

    /// Sends parts until there is none.
    fn send(
        &mut self,
        mut next_part: impl FnMut(&mut Vec<u8>) -> io::Result<()>,
    ) -> Result<(), Fault> {
        let mut part = Vec::new();
        loop {
            part.clear();
            next_part(&mut part).map_err(Fault::File)?;
            if part.is_empty() {
                return self.finish();
            }
            self.stream.write_all(&part).map_err(Fault::Connection)?;
            self.count(part.len());
        }
    }

    /// Sends the end. To close over unread bytes resets a connection, and what was sent last may be
    /// lost: so where the client has sent any, its own end is waited for.
    fn finish(&mut self) -> Result<(), Fault> {
        self.stream.finish().map_err(Fault::Connection)?;
        if self.stream.has_unread() {
            self.stream.drop_unread();
        }
        Ok(())
    }

    /// Receives a file.
    fn receive(&mut self, mut sink: Sink) -> Result<(), Fault> {
        match self.fill(&mut sink) {
            Ok(()) => {
                sink.finish().map_err(Fault::NoFile)?;
                // The file is whole, also where the client is away.
                let _ = self.stream.finish();
                Ok(())
            }
            Err(fault) => {
                sink.cut().map_err(Fault::NoFile)?;
                Err(fault)
            }
        }
    }

    /// Writes what comes, up to its end. A client that only sends a byte now and then stands still.
    fn fill(&mut self, sink: &mut Sink) -> Result<(), Fault> {
        let mut part = vec![0; PART];
        let (mut begun, mut received) = (Instant::now(), 0);
        loop {
            let count = match self.stream.read(&mut part) {
                Err(error) if error.kind() == ErrorKind::Interrupted => continue,
                read => read.map_err(Fault::Connection)?,
            };
            if count == 0 {
                return Ok(());
            }
            received += count;
            if begun.elapsed() > self.stall * STALLS {
                if received < LEAST {
                    return Err(Fault::Connection(ErrorKind::TimedOut.into()));
                }
                (begun, received) = (Instant::now(), 0);
            }
            sink.write(&part[..count]).map_err(Fault::File)?;
            self.count(count);
        }
    }

    fn count(&self, count: usize) {
        self.count.fetch_add(count as u64, Ordering::Relaxed);
    }
}

/// The fault of a file that has fewer bytes than when its transfer began.
fn cut_file() -> io::Error {
    io::Error::new(ErrorKind::UnexpectedEof, "the file was cut")
}

/// Does what may wait for a disk.
pub async fn blocking<T: Send + 'static>(
    work: impl FnOnce() -> io::Result<T> + Send + 'static,
) -> io::Result<T> {
    spawn_blocking(work).await?
}

/// How many bytes a file has.
pub fn size(facts: &Stat) -> u64 {
    u64::try_from(facts.st_size).unwrap_or_default()
}
