//! A log on standard error, which a thread of its own writes: a session waits neither for a disk nor
//! for who reads the log. Lines that find no room, or can't be written, are dropped and counted.
use std::io::{self, ErrorKind, Write};
use std::mem;
use std::str::FromStr;
use std::sync::{Arc, Condvar, Mutex, MutexGuard, PoisonError};
use std::thread;
use std::time::Duration;
use time::format_description::FormatItem;
use time::macros::format_description;
use time::OffsetDateTime;
use tracing::level_filters::LevelFilter;

/// How many bytes of lines may wait to be written. As many may be on their way.
const ROOM: usize = 1 << 20;
/// How long the program's end waits for the last lines to be written.
const PATIENCE: Duration = Duration::from_secs(1);
/// A time as `tracing_subscriber` writes it.
const TIME: &[FormatItem] =
    format_description!("[year]-[month]-[day]T[hour]:[minute]:[second].[subsecond digits:6]Z");

/// How lines are written.
#[derive(Clone, Copy, Debug, Default, PartialEq, Eq)]
pub enum Format {
    /// As text.
    #[default]
    Text,
    /// Each as an object of JSON.
    Json,
}

impl FromStr for Format {
    type Err = &'static str;

    fn from_str(name: &str) -> Result<Format, &'static str> {
        match name {
            "text" => Ok(Format::Text),
            "json" => Ok(Format::Json),
            _ => Err("text or json"),
        }
    }
}

/// Logs events of this level, and more severe ones, until what it returns is dropped.
///
/// # Errors
///
/// Where no thread can be made.
pub fn start(level: LevelFilter, format: Format) -> io::Result<LogEnd> {
    let log = Arc::new(Log::default());
    let writing = log.clone();
    let write = move || writing.write_to(io::stderr(), format);
    thread::Builder::new().name("log".to_string()).spawn(write)?;
    let subscriber = tracing_subscriber::fmt().with_max_level(level).with_writer(log.clone());
    let subscriber = subscriber.with_ansi(false).with_target(false);
    match format {
        Format::Text => subscriber.init(),
        Format::Json => subscriber.json().with_span_list(false).init(),
    }
    Ok(LogEnd(log))
}

/// The end of the log. When it is dropped, the last lines are written, for a second at most.
#[must_use = "the log ends where this is dropped"]
pub struct LogEnd(Arc<Log>);

impl Drop for LogEnd {
    fn drop(&mut self) {
        let mut waiting = self.0.waiting();
        waiting.is_ending = true;
        self.0.changed.notify_all();
        let _ = self.0.changed.wait_timeout_while(waiting, PATIENCE, |it| !it.has_ended);
    }
}

/// Lines between the sessions and the thread that writes them.
#[derive(Default)]
struct Log {
    waiting: Mutex<Waiting>,
    changed: Condvar,
}

#[derive(Default)]
struct Waiting {
    lines: Vec<u8>,
    /// How many lines came after these, and found no room.
    dropped: usize,
    /// Whether no further line comes.
    is_ending: bool,
    /// Whether all is written.
    has_ended: bool,
}

impl Waiting {
    fn is_empty(&self) -> bool {
        self.lines.is_empty() && self.dropped == 0
    }
}

impl Log {
    fn waiting(&self) -> MutexGuard<'_, Waiting> {
        self.waiting.lock().unwrap_or_else(PoisonError::into_inner)
    }

    /// Writes lines as they come, up to the end of the log.
    fn write_to(&self, output: impl Write, format: Format) {
        let mut output = Output { to: output, format, dropped: 0, is_cut: false };
        while let Some((lines, dropped)) = self.next() {
            output.write(&lines, dropped);
        }
        self.waiting().has_ended = true;
        self.changed.notify_all();
    }

    /// The next lines, and how many were dropped after them. At the end there are none.
    fn next(&self) -> Option<(Vec<u8>, usize)> {
        let is_early = |waiting: &mut Waiting| waiting.is_empty() && !waiting.is_ending;
        let waiting = self.changed.wait_while(self.waiting(), is_early);
        let mut waiting = waiting.unwrap_or_else(PoisonError::into_inner);
        let has_lines = !waiting.is_empty();
        has_lines.then(|| (mem::take(&mut waiting.lines), mem::take(&mut waiting.dropped)))
    }
}

impl Write for &Log {
    /// Takes a line, and never fails.
    fn write(&mut self, line: &[u8]) -> io::Result<usize> {
        let mut waiting = self.waiting();
        let was_empty = waiting.is_empty();
        // after a dropped line a shorter one is dropped too, so that the count is in their place
        if waiting.dropped > 0 || waiting.lines.len() + line.len() > ROOM {
            waiting.dropped += 1;
        } else {
            waiting.lines.extend_from_slice(line);
        }
        if was_empty {
            self.changed.notify_all();
        }
        Ok(line.len())
    }

    fn flush(&mut self) -> io::Result<()> {
        Ok(())
    }
}

/// Where the log goes.
struct Output<W> {
    to: W,
    format: Format,
    /// How many lines are missing, since it was last written how many.
    dropped: usize,
    /// Whether it ends in the midst of a line.
    is_cut: bool,
}

impl<W: Write> Output<W> {
    /// Writes lines, after which so many were dropped, and how many are missing so far.
    fn write(&mut self, lines: &[u8], dropped: usize) {
        self.dropped += self.write_lines(lines) + dropped;
        if self.dropped > 0 {
            let notice = notice(self.format, self.dropped);
            if self.write_lines(notice.as_bytes()) == 0 {
                self.dropped = 0;
            }
        }
    }

    /// Writes lines as far as it can, and returns how many of them are not whole.
    fn write_lines(&mut self, lines: &[u8]) -> usize {
        let is_ready = !self.is_cut || self.write_bytes(b"\n") == 1;
        let count = if is_ready { self.write_bytes(lines) } else { 0 };
        lines[count..].iter().filter(|byte| **byte == b'\n').count()
    }

    /// Writes bytes as far as it can, and returns how many.
    fn write_bytes(&mut self, bytes: &[u8]) -> usize {
        let mut left = bytes;
        while !left.is_empty() {
            match self.to.write(left) {
                Ok(count @ 1..) => {
                    self.is_cut = left[count - 1] != b'\n';
                    left = &left[count..];
                }
                Err(error) if error.kind() == ErrorKind::Interrupted => {}
                Ok(0) | Err(_) => break,
            }
        }
        bytes.len() - left.len()
    }
}

/// The line that says how many are missing.
fn notice(format: Format, count: usize) -> String {
    let time = OffsetDateTime::now_utc().format(TIME).unwrap_or_default();
    let message = "log lines were dropped";
    match format {
        Format::Text => format!("{time}  WARN {message} count={count}\n"),
        Format::Json => format!(
            "{{\"timestamp\":\"{time}\",\"level\":\"WARN\",\
             \"fields\":{{\"message\":\"{message}\",\"count\":{count}}}}}\n"
        ),
    }
}

#[cfg(test)]
mod tests {
    use super::*;

    /// An output that has room for so many bytes.
    struct Disk {
        written: Vec<u8>,
        room: usize,
    }

    impl Write for Disk {
        fn write(&mut self, bytes: &[u8]) -> io::Result<usize> {
            let count = bytes.len().min(self.room);
            if count == 0 {
                return Err(io::Error::from_raw_os_error(28));
            }
            self.room -= count;
            self.written.extend_from_slice(&bytes[..count]);
            Ok(count)
        }

        fn flush(&mut self) -> io::Result<()> {
            Ok(())
        }
    }

    /// The lines, without their times.
    fn lines(written: &[u8]) -> Vec<&str> {
        let text = std::str::from_utf8(written).expect("UTF-8");
        text.lines().map(|line| line.split_once("Z  ").map_or(line, |(_, rest)| rest)).collect()
    }

    fn logged(lines: &[&[u8]]) -> Vec<u8> {
        let (log, mut written) = (Log::default(), Vec::new());
        for line in lines {
            let _ = (&log).write_all(line);
        }
        log.waiting().is_ending = true;
        log.write_to(&mut written, Format::Text);
        written
    }

    #[test]
    fn what_finds_no_room_is_counted_in_its_place() {
        let mut large = vec![b'x'; ROOM - 1];
        large.push(b'\n');
        let written = logged(&[&large, b"a\n", b"b\n"]);
        assert_eq!(lines(&written[ROOM..]), ["WARN log lines were dropped count=2"]);
        large.push(b'\n');
        assert_eq!(lines(&logged(&[&large])), ["WARN log lines were dropped count=1"]);
        assert_eq!(lines(&logged(&[b"a\n", &large, b"b\n"]))[0], "a");
    }

    #[test]
    fn what_cannot_be_written_is_counted_once_there_is_room() {
        let disk = Disk { written: Vec::new(), room: 6 };
        let mut output = Output { to: disk, format: Format::Text, dropped: 0, is_cut: false };
        output.write(b"one\ntwo\nthree\n", 4);
        output.write(b"four\n", 0);
        assert_eq!(output.to.written, b"one\ntw");
        output.to.room = 1000;
        output.write(b"five\n", 0);
        let written = lines(&output.to.written);
        assert_eq!(written, ["one", "tw", "five", "WARN log lines were dropped count=7"]);
    }
}
