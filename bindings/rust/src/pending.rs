use crate::command::{Command, Keep};
use crate::error::Error;
use crate::event::{Event, Line};
use crate::lines::{Lines, LINE_LIMIT};
use std::fmt::{self, Debug, Formatter};

/// The pending bytes of a connection: what a client has sent and no event has used up.
///
/// ```
/// use unftp_control::{Command, Event, Pending};
///
/// let mut pending = Pending::new();
/// pending.push(b"re")?;
/// assert_eq!(pending.next_event()?, None);
/// pending.push(b"tr a.txt\r\n")?;
/// let retr = Command::Retr { path: "a.txt".into() };
/// assert_eq!(pending.next_event()?, Some(Event::Command(retr)));
/// # Ok::<(), unftp_control::Error>(())
/// ```
#[derive(Clone)]
pub struct Pending {
    received: Vec<u8>,
    /// How many of the received bytes are used up. `push` drops them.
    used: usize,
    /// How many of the used bytes, at their end, are the last line.
    line: usize,
    lines: Lines,
}

impl Pending {
    /// No bytes, at the start of a connection whose lines may have [`LINE_LIMIT`] bytes.
    pub fn new() -> Pending {
        Pending::with_limit(LINE_LIMIT)
    }

    /// The same with another limit; 0 is none. A line of more bytes, its line feed counted, is
    /// refused, and fewer bytes than that stay pending once there is no event.
    pub fn with_limit(limit: usize) -> Pending {
        Pending { received: Vec::new(), used: 0, line: 0, lines: Lines::new(limit) }
    }

    /// Appends bytes that were received.
    ///
    /// # Errors
    ///
    /// [`Error::OutOfMemory`]; the pending bytes are then as before.
    pub fn push(&mut self, bytes: &[u8]) -> Result<(), Error> {
        if self.used == self.received.len() {
            self.received.clear();
        } else if self.used > 0 {
            self.received.drain(..self.used);
        }
        (self.used, self.line) = (0, 0);
        self.received.try_reserve(bytes.len()).map_err(|_| Error::OutOfMemory)?;
        self.received.extend_from_slice(bytes);
        Ok(())
    }

    /// Takes the first line of the pending bytes; `None` where none is complete.
    ///
    /// # Errors
    ///
    /// [`Error::OutOfMemory`]; the line is then still pending.
    #[inline]
    pub fn next_event(&mut self) -> Result<Option<Event<'_>>, Error> {
        take_line(&mut self.lines, &self.received, &mut self.used, &mut self.line)
    }

    /// As [`next_event`](Pending::next_event), with the bytes of the line.
    ///
    /// ```
    /// use unftp_control::{Command, Event, Pending};
    ///
    /// let mut pending = Pending::new();
    /// pending.push(b"TYPE A\r\n")?;
    /// let line = pending.next_line()?.expect("a line");
    /// assert_eq!(line.event, Event::Command(Command::Type));
    /// assert_eq!(line.bytes, b"TYPE A\r\n");
    /// # Ok::<(), unftp_control::Error>(())
    /// ```
    ///
    /// # Errors
    ///
    /// [`Error::OutOfMemory`]; the line is then still pending.
    pub fn next_line(&mut self) -> Result<Option<Line<'_>>, Error> {
        let event = take_line(&mut self.lines, &self.received, &mut self.used, &mut self.line)?;
        let bytes = &self.received[self.used - self.line..self.used];
        Ok(event.map(|event| Line { event, bytes }))
    }

    /// The bytes of the line whose event the last call returned, its line feed among them: also
    /// those that its command ignores, as the `A` of `TYPE A`. It is empty where the line is too
    /// long, where that call returned no event, and after `push`.
    ///
    /// The line of PASS holds the password.
    pub fn line(&self) -> &[u8] {
        &self.received[self.used - self.line..self.used]
    }

    /// The bytes that are pending.
    pub fn bytes(&self) -> &[u8] {
        &self.received[self.used..]
    }

    /// Whether bytes of the first line were dropped, since it is too long and has not ended.
    pub fn is_skipping(&self) -> bool {
        self.lines.is_skipping()
    }

    /// Drops the pending bytes, and what was dropped of a long line before them: what came in clear
    /// text is not to be read as if it had come under TLS.
    pub fn clear(&mut self) {
        self.received.clear();
        (self.used, self.line) = (0, 0);
        self.lines.restart();
    }
}

/// Takes the first line of the bytes that are not used up. Then `line` is how many bytes at the end of
/// the used ones are that line: none where it is too long.
#[inline(always)]
fn take_line<'a>(
    lines: &'a mut Lines,
    received: &'a [u8],
    used: &mut usize,
    line: &mut usize,
) -> Result<Option<Event<'a>>, Error> {
    let pending = &received[*used..];
    if lines.passes_over(pending) {
        *line = 0;
        return Ok(None);
    }
    take_line_by_call(lines, pending, used, line)
}

// a function of its own, so that the path without a call needs no stack for an event
#[inline(never)]
fn take_line_by_call<'a>(
    lines: &'a mut Lines,
    pending: &'a [u8],
    used: &mut usize,
    line: &mut usize,
) -> Result<Option<Event<'a>>, Error> {
    let taken = lines.take(pending);
    if Command::is_word(taken.number()) {
        *line = taken.used();
        *used += *line;
        return Command::word(taken.number());
    }
    *line = 0;
    let Some(taken) = taken.with_room() else {
        return Err(Error::OutOfMemory);
    };
    if taken.is_line() {
        *line = taken.used();
    }
    *used += taken.used();
    Ok(taken.event(Keep::BORROWED))
}

impl Default for Pending {
    fn default() -> Pending {
        Pending::new()
    }
}

/// Shows how many bytes are pending and not which, since a password may be among them.
impl Debug for Pending {
    fn fmt(&self, f: &mut Formatter<'_>) -> fmt::Result {
        f.debug_struct("Pending").field("len", &self.bytes().len()).finish_non_exhaustive()
    }
}
