use crate::command::{Command, Keep};
use crate::event::{Event, Refusal};
use crate::ffi::{self, Taken};
use std::fmt::{self, Debug, Formatter};

/// The most bytes of a line, its line feed counted, where no other limit is named: enough for a
/// verb and a path of 4,096 bytes with each CR sent as CR NUL.
pub const LINE_LIMIT: usize = 8192;

/// How many bytes the area has at least, once a line needs it: few lines do.
const AREA: usize = 64;

/// Fewer new bytes than these are searched for a line feed here, since a call would take longer.
const FEW: usize = 16;

/// Takes the lines of a connection, whose pending bytes its owner keeps.
#[derive(Clone)]
pub(crate) struct Lines {
    state: ffi::State,
}

impl Lines {
    /// At the start of a connection. A limit of 0 is none.
    pub(crate) fn new(limit: usize) -> Lines {
        let connection = ffi::Connection { limit, ..ffi::Connection::default() };
        Lines { state: ffi::State::new(connection) }
    }

    /// Forgets what it knows of the pending bytes.
    pub(crate) fn restart(&mut self) {
        self.state.connection.offset = 0;
        self.state.connection.skipping = 0;
    }

    /// Whether bytes of the first line were dropped, since it is too long.
    pub(crate) fn is_skipping(&self) -> bool {
        self.state.connection.skipping != 0
    }

    /// Whether no line can be taken yet, as is seen without a call of the library: nothing is
    /// pending, or fewer than `FEW` bytes are new and the first line is neither complete nor too
    /// long. The connection is then as a call would leave it. Else the library has to be called.
    #[inline]
    pub(crate) fn passes_over(&mut self, pending: &[u8]) -> bool {
        let offset = &mut self.state.connection.offset;
        if pending.len() >= *offset + FEW {
            return false;
        }
        match pending.last() {
            // one line has come, and once it is taken there is none
            Some(b'\n') if *offset <= pending.len() => false,
            None => {
                *offset = 0;
                true
            }
            Some(_) => self.passes_over_few(pending),
        }
    }

    // a function of its own, so that `passes_over` is a few comparisons where it is inlined
    #[inline(never)]
    fn passes_over_few(&mut self, pending: &[u8]) -> bool {
        let ffi::Connection { limit, offset, skipping } = &mut self.state.connection;
        if *offset > pending.len() {
            // the owner has dropped bytes
            *offset = 0;
        }
        let new = &pending[*offset..];
        let passes = new.len() < FEW
            && *skipping == 0
            && (*limit == 0 || pending.len() < *limit)
            && !new.contains(&b'\n');
        if passes {
            *offset = pending.len();
        }
        passes
    }

    /// Takes the first line of the pending bytes by a call. The offset has to be within them, as it
    /// is after `passes_over` and `new`.
    #[inline]
    pub(crate) fn take<'a>(&'a mut self, pending: &'a [u8]) -> Taken<'a> {
        self.state.next(pending)
    }
}

impl<'a> Taken<'a> {
    /// Whether the used bytes are a whole line: of one that is too long they are only the end.
    #[inline]
    pub(crate) fn is_line(&self) -> bool {
        !matches!(self.number(), ffi::MORE | ffi::LINE_TOO_LONG)
    }

    /// The same, once the area has room for it; `None` where memory runs out.
    // In a `Result` the error would be where a part of the value is, which is then read in pieces.
    #[inline]
    pub(crate) fn with_room(mut self) -> Option<Taken<'a>> {
        while self.number() == ffi::NO_ROOM {
            self = self.with_more_room()?;
        }
        (self.number() != ffi::OUT_OF_MEMORY).then_some(self)
    }

    // the line is read again, and the area at least doubles: so lines ever longer cost few of these
    #[cold]
    fn with_more_room(self) -> Option<Taken<'a>> {
        let room = self.needed().max(2 * self.room()).max(AREA);
        self.retry(room).ok()
    }

    /// Its event, if a line is complete. The area has to have room for it.
    // inlined, it is made where the caller wants it, and not moved
    #[inline(always)]
    pub(crate) fn event<'kept>(self, keep: Keep<'a, 'kept>) -> Option<Event<'kept>> {
        if self.number() == ffi::MORE {
            return None;
        }
        Some(match Refusal::of_status(self.number()) {
            Some(refusal) => Event::Refused(refusal),
            None => Event::Command(Command::of_line(self.given(), keep)),
        })
    }
}

/// Shows nothing of the area, where a password may be.
impl Debug for Lines {
    fn fmt(&self, f: &mut Formatter<'_>) -> fmt::Result {
        self.state.connection.fmt(f)
    }
}

#[cfg(test)]
mod tests {
    use super::*;
    use crate::error::Error;

    /// Takes a line as the owners of `Lines` do: how many bytes are used up, and whether there is
    /// an event.
    fn take(lines: &mut Lines, pending: &[u8]) -> Result<(usize, bool), Error> {
        if lines.passes_over(pending) {
            return Ok((0, false));
        }
        by_call(&mut lines.state, pending)
    }

    /// The same by a call of the library.
    fn by_call(state: &mut ffi::State, pending: &[u8]) -> Result<(usize, bool), Error> {
        let taken = state.next(pending).with_room().ok_or(Error::OutOfMemory)?;
        Ok((taken.used(), taken.event(Keep::BORROWED).is_some()))
    }

    #[test]
    fn no_byte_is_scanned_again() -> Result<(), Error> {
        let mut lines = Lines::new(0);
        let mut pending = Vec::new();
        for count in 1..=100 {
            pending.push(b'a');
            assert_eq!(take(&mut lines, &pending)?.0, 0);
            assert_eq!(lines.state.connection.offset, count);
        }
        pending.push(b'\n');
        assert_eq!(take(&mut lines, &pending)?.0, 101);
        assert_eq!(lines.state.connection.offset, 0);
        Ok(())
    }

    /// Pushes the input in pieces of this size, and takes the lines after each. The library is
    /// called beside it each time, and has to leave the same.
    fn takes_as_the_library(limit: usize, input: &[u8], size: usize) -> Result<(), Error> {
        let (mut lines, mut beside) = (Lines::new(limit), Lines::new(limit).state);
        let mut pending = Vec::new();
        for piece in input.chunks(size) {
            pending.extend_from_slice(piece);
            loop {
                let (used, is_event) = take(&mut lines, &pending)?;
                let expected = match &pending[..] {
                    [] => (0, false),
                    pending => by_call(&mut beside, pending)?,
                };
                assert_eq!((used, is_event), expected);
                assert_eq!(lines.state.connection.offset, beside.connection.offset);
                assert_eq!(lines.state.connection.skipping, beside.connection.skipping);
                pending.drain(..used);
                if !is_event {
                    break;
                }
            }
            assert!(limit == 0 || pending.len() < limit);
        }
        Ok(())
    }

    #[test]
    fn few_new_bytes_are_taken_as_the_library_takes_them() -> Result<(), Error> {
        let long = format!("RETR {}\r\n", "a".repeat(40));
        let input = ["NOOP\r\n", &long, "\n\r\nSTOR b\r\nx", &long, &long, "QUIT\r\nUSER"].concat();
        for limit in [0, 1, 2, 6, 7, 15, 16, 17, 46, 47, 48, 100] {
            for size in [1, 2, 7, 15, 16, 17, 200] {
                takes_as_the_library(limit, input.as_bytes(), size)?;
            }
        }
        Ok(())
    }

    /// Takes this line, after which the area has to have so many bytes.
    fn leaves_area(lines: &mut Lines, line: &str, area: usize) -> Result<(), Error> {
        assert_eq!(take(lines, line.as_bytes())?, (line.len(), true));
        assert_eq!(lines.state.room(), area, "{} bytes: {line:.20}", line.len());
        Ok(())
    }

    #[test]
    fn a_line_that_has_its_value_as_it_is_needs_no_area() -> Result<(), Error> {
        let mut lines = Lines::new(0);
        for line in ["NOOP", "TYPE A", "type a", "REST +5", "RETR \u{e9}", "PASS a b", "AUTH TLS"] {
            leaves_area(&mut lines, &format!("{line}\r\n"), 0)?;
        }
        leaves_area(&mut lines, &format!("RETR {}\r\n", "a".repeat(100_000)), 0)
    }

    #[test]
    fn a_name_needs_its_own_room() -> Result<(), Error> {
        let mut lines = Lines::new(0);
        let value = "a".repeat(5000);
        leaves_area(&mut lines, &format!("site chmod {value}\r\n"), AREA)?;
        leaves_area(&mut lines, &format!("clnt {value}\r\n"), AREA)?;
        leaves_area(&mut lines, &format!("{} {value}\r\n", "x".repeat(3 * AREA)), 3 * AREA)
    }

    #[test]
    fn the_area_at_least_doubles() -> Result<(), Error> {
        let mut lines = Lines::new(0);
        leaves_area(&mut lines, "auth tls\r\n", AREA)?;
        // CR NUL is one CR, so the value takes `path + 1` bytes
        for (path, area) in [
            (AREA - 1, AREA),
            (AREA, 2 * AREA),
            (5 * AREA, 5 * AREA + 1),
            (5 * AREA + 1, 10 * AREA + 2),
            (1, 10 * AREA + 2),
        ] {
            leaves_area(&mut lines, &format!("RETR {}\r\0\r\n", "a".repeat(path)), area)?;
        }
        Ok(())
    }

    #[test]
    fn no_bytes_are_the_start_of_a_line() -> Result<(), Error> {
        let mut lines = Lines::new(0);
        assert_eq!(take(&mut lines, b"AUTH")?.0, 0);
        assert_eq!(take(&mut lines, b"")?.0, 0);
        assert_eq!(take(&mut lines, b"\r\nNOOP\r\n")?.0, 2);
        Ok(())
    }
}
