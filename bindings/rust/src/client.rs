use crate::code::ReplyCode;
use crate::command::Command;
use crate::error::Error;
use crate::ffi;
use crate::received::ReceivedReply;
use crate::reply_decoder::{ReplyDecoder, REPLY_LIMIT};
use std::collections::vec_deque::{IntoIter, Iter, IterMut, VecDeque};
use std::error;
use std::fmt::{self, Debug, Display, Formatter};

/// What a reply is to. [`Client::next_reply`] names a command by its place, and
/// [`Client::next_reply_with`] by its value.
#[derive(Clone, Copy, Debug, PartialEq, Eq, Hash)]
pub enum To<V = u64> {
    /// The connection: the server greets the client (RFC 959, section 5.4).
    Greeting,
    /// A command: its place among all that were sent, of which the first one has place 0, or its
    /// [`ReplyValue`].
    Command(V),
    /// Nothing: no reply was owed. A server may say 421 so before it closes the connection.
    Nothing,
}

impl<V> To<V> {
    pub(crate) fn map<W>(self, change: impl FnOnce(V) -> W) -> To<W> {
        match self {
            To::Greeting => To::Greeting,
            To::Command(value) => To::Command(change(value)),
            To::Nothing => To::Nothing,
        }
    }
}

/// The value of the command that a reply is to.
#[derive(Debug, PartialEq, Eq)]
pub enum ReplyValue<'a, T> {
    /// The reply is [preliminary](ReceivedReply::is_preliminary), and the client keeps the value.
    Preliminary(&'a mut T),
    /// The reply is the final one, and the client has the value no more.
    Final(T),
}

/// A reply that a client has received, and what it is to.
#[derive(Clone, Debug, PartialEq, Eq)]
#[non_exhaustive]
pub struct ClientReply<'a, V = u64> {
    /// What it is to.
    pub to: To<V>,
    /// What was received. Where it is [preliminary](ReceivedReply::is_preliminary), another reply
    /// to the same follows.
    pub reply: ReceivedReply<'a>,
}

impl<V> ClientReply<'_, V> {
    /// The same reply, whose bytes are copied where they are borrowed.
    pub fn into_owned(self) -> ClientReply<'static, V> {
        ClientReply { to: self.to, reply: self.reply.into_owned() }
    }
}

/// Why a line was not sent, and the value that was given with it. `?` turns it into the [`Error`],
/// whose text it has.
#[derive(Clone, Copy, PartialEq, Eq)]
#[non_exhaustive]
pub struct SendError<T> {
    /// Why the line was not sent.
    pub error: Error,
    /// The value that was given with it.
    pub value: T,
}

/// Shows the error, and nothing of the value.
impl<T> Debug for SendError<T> {
    fn fmt(&self, f: &mut Formatter<'_>) -> fmt::Result {
        f.debug_struct("SendError").field("error", &self.error).finish_non_exhaustive()
    }
}

impl<T> Display for SendError<T> {
    fn fmt(&self, f: &mut Formatter<'_>) -> fmt::Result {
        Display::fmt(&self.error, f)
    }
}

impl<T> error::Error for SendError<T> {}

impl<T> From<SendError<T>> for Error {
    fn from(unsent: SendError<T>) -> Error {
        unsent.error
    }
}

/// How far the dialogue with a server has come.
#[derive(Clone, Debug)]
pub(crate) struct Dialogue<T = ()> {
    state: ffi::Client,
    /// The value of each line that is owed its final reply, in order. Only `line` adds one, and only
    /// `reply` takes one.
    values: VecDeque<T>,
}

impl<T> Dialogue<T> {
    /// Nothing was sent or received.
    pub(crate) fn new() -> Dialogue<T> {
        Dialogue { state: ffi::Client::default(), values: VecDeque::new() }
    }

    /// Notes a line that is sent, with its value: the line's place. At an error nothing is noted.
    pub(crate) fn line(&mut self, line: &[u8], value: T) -> Result<u64, SendError<T>> {
        if self.values.try_reserve(1).is_err() {
            return Err(SendError { error: Error::OutOfMemory, value });
        }
        let error = match ffi::client_line(&mut self.state, line) {
            (ffi::DONE, place) => {
                self.values.push_back(value);
                return Ok(place);
            }
            (ffi::NO_LINE, _) => Error::NotALine,
            (ffi::INVALID_ARGUMENT, _) => Error::TooManyCommands,
            (status, _) => unreachable!("unftp_client_line leaves no status {status}"),
        };
        Err(SendError { error, value })
    }

    /// Notes a reply, and says what it is to: a line's place, and its value.
    pub(crate) fn reply(&mut self, code: u16) -> To<(u64, ReplyValue<'_, T>)> {
        reply_to(&mut self.state, code).map(move |place| (place, self.replied_value()))
    }

    /// What the next reply is to, which is not noted: the value of a line.
    fn next_to(&self, code: u16) -> To<&T> {
        let mut copy = self.state;
        reply_to(&mut copy, code).map(|_| self.values.front().expect(HAS_VALUE))
    }

    /// The value of the line to which the last reply is.
    fn replied_value(&mut self) -> ReplyValue<'_, T> {
        // a final reply leaves one line less that is owed one
        let value = match self.owed() < self.values.len() as u64 {
            true => self.values.pop_front().map(ReplyValue::Final),
            false => self.values.front_mut().map(ReplyValue::Preliminary),
        };
        value.expect(HAS_VALUE)
    }

    /// Whether the greeting is complete.
    pub(crate) fn is_greeted(&self) -> bool {
        self.state.greeted != 0
    }

    /// How many lines were sent.
    pub(crate) fn sent(&self) -> u64 {
        self.state.sent
    }

    /// How many lines are owed their final reply.
    pub(crate) fn owed(&self) -> u64 {
        ffi::client_owed(&self.state)
    }

    /// Whether TLS may begin, where so many bytes are pending.
    pub(crate) fn may_begin_tls(&self, pending: usize) -> bool {
        ffi::client_may_begin_tls(&self.state, pending)
    }

    /// Notes that a proxy takes the next line of its client, where it may.
    pub(crate) fn take_line(&mut self) -> bool {
        ffi::client_take(&mut self.state)
    }

    pub(crate) fn may_take_line(&self) -> bool {
        let mut copy = self.state;
        ffi::client_take(&mut copy)
    }

    /// Notes that a proxy answers the line that it has taken, where it may.
    pub(crate) fn answer(&mut self, code: ReplyCode) -> bool {
        ffi::client_answer(&mut self.state, u32::from(code.get()))
    }

    pub(crate) fn may_answer(&self, code: ReplyCode) -> bool {
        let mut copy = self.state;
        ffi::client_answer(&mut copy, u32::from(code.get()))
    }

    pub(crate) fn values(&self) -> Iter<'_, T> {
        self.values.iter()
    }

    pub(crate) fn values_mut(&mut self) -> IterMut<'_, T> {
        self.values.iter_mut()
    }

    pub(crate) fn into_values(self) -> IntoIter<T> {
        self.values.into_iter()
    }
}

const HAS_VALUE: &str = "each line that is owed its final reply has a value";

/// Notes a reply in a state, and says what it is to: a line's place.
fn reply_to(state: &mut ffi::Client, code: u16) -> To {
    match ffi::client_reply(state, u32::from(code)) {
        (ffi::TO_GREETING, _) => To::Greeting,
        (ffi::TO_COMMAND, place) => To::Command(place),
        (ffi::TO_NOTHING, _) => To::Nothing,
        (to, _) => unreachable!("`to_number` of unftp_client_reply gives no {to}"),
    }
}

/// A client's end of a control connection, without input and output: it writes the lines of
/// commands, and says to which of them each reply is. A server replies in order (RFC 959, sections
/// 4.2 and 5.4), and commands may be sent before the replies to earlier ones came.
///
/// Nothing in a reply says what it is to, so a server that doesn't keep the order is not noticed:
/// pyftpdlib answers NOOP within a transfer before the 226, and both replies are then given to the
/// wrong command. While a transfer is under way, send only ABOR and QUIT, unless the server keeps
/// the order.
///
/// Under TLS the same client goes on where [`tls_agreed`](Client::tls_agreed): the server sends no
/// second greeting, for which a new one would wait.
///
/// ```
/// use unftp_control::{Client, Command, To};
///
/// let mut client = Client::new();
/// let mut output = Vec::new();
/// client.send(&Command::Pasv, &mut output)?;
/// let retr = client.send(&Command::Retr { path: "a.txt".into() }, &mut output)?;
/// assert_eq!(output, b"PASV\r\nRETR a.txt\r\n");
/// assert_eq!((client.is_greeted(), client.owed()), (false, 2));
///
/// client.receive(b"220 Ready\r\n227 (127,0,0,1,4,1)\r\n150 Opening\r\n226 Do")?;
/// let mut taken = Vec::new();
/// while let Some(reply) = client.next_reply()? {
///     taken.push((reply.to, reply.reply.code()));
/// }
/// assert_eq!(taken, [(To::Greeting, 220), (To::Command(0), 227), (To::Command(retr), 150)]);
/// assert_eq!((client.is_greeted(), client.owed()), (true, 1));
/// # Ok::<(), unftp_control::Error>(())
/// ```
///
/// # Values
///
/// A client may keep a value of the caller's for each command: what the reply is wanted for, say. It
/// comes with each reply to the command, and leaves the client with the final one.
///
/// ```
/// use unftp_control::{Client, Command, ReplyValue, To};
///
/// let mut client = Client::with_values();
/// let mut output = Vec::new();
/// for path in ["a.txt", "b.txt", "c.txt"] {
///     client.send_with(&Command::Size { file: path.into() }, path, &mut output)?;
/// }
/// assert_eq!(output, b"SIZE a.txt\r\nSIZE b.txt\r\nSIZE c.txt\r\n");
///
/// client.receive(b"220 Ready\r\n213 5\r\n550 No such file\r\n")?;
/// let mut codes = Vec::new();
/// while let Some(reply) = client.next_reply_with()? {
///     if let To::Command(ReplyValue::Final(path)) = reply.to {
///         codes.push((path, reply.reply.code()));
///     }
/// }
/// assert_eq!(codes, [("a.txt", 213), ("b.txt", 550)]);
/// assert!(client.values().eq(&["c.txt"]));
/// # Ok::<(), unftp_control::Error>(())
/// ```
///
/// # A proxy
///
/// A proxy is a client of the server, and takes the lines of a client of its own. It takes each by
/// [`take_line`](Client::take_line), and gives its client each reply that it takes here, unless it
/// is to nothing, and each reply of its own for which [`answer`](Client::answer) returns true.
/// Whatever calls it makes, its client then gets the greeting and one exchange for each line that
/// was taken, in order.
#[derive(Clone, Debug)]
pub struct Client<T = ()> {
    replies: ReplyDecoder,
    dialogue: Dialogue<T>,
}

/// A client that keeps no values.
impl Client {
    /// Nothing was sent or received. A reply may have [`REPLY_LIMIT`] bytes.
    pub fn new() -> Client {
        Client::with_values()
    }

    /// The same with another limit; 0 is none.
    pub fn with_limit(limit: usize) -> Client {
        Client::with_limit_and_values(limit)
    }

    /// Appends the line of the command, which the caller sends, and returns the command's place. It
    /// is its [canonical line](Command::to_line): for another TYPE than `TYPE I`, for `EPSV ALL`
    /// and for the number of ALLO use [`send_line`](Client::send_line).
    ///
    /// # Errors
    ///
    /// [`Error::NoLine`] where no line is read as this command, [`Error::OutOfMemory`] and
    /// [`Error::TooManyCommands`]. Nothing is then appended, and nothing is owed for it.
    pub fn send(&mut self, command: &Command<'_>, output: &mut Vec<u8>) -> Result<u64, Error> {
        Ok(self.send_with(command, (), output)?)
    }

    /// Appends a line as it is, for what no [`Command`] says, as `TYPE A` or `OPTS MLST size`, and
    /// returns its place.
    ///
    /// # Errors
    ///
    /// [`Error::NotALine`] where no line feed is the last byte or one comes before it, so that no
    /// second line is sent with the first, [`Error::OutOfMemory`] and [`Error::TooManyCommands`].
    /// Nothing is then appended, and nothing is owed for it.
    pub fn send_line(&mut self, line: &[u8], output: &mut Vec<u8>) -> Result<u64, Error> {
        Ok(self.send_line_with(line, (), output)?)
    }

    /// Takes the first reply of the pending bytes, with what it is to; `None` where it is not
    /// complete.
    ///
    /// # Errors
    ///
    /// [`Error::ReplyTooLong`] and [`Error::MalformedReply`], as
    /// [`ReplyDecoder::next_reply`]. All bytes stay pending, and what is owed is as before.
    pub fn next_reply(&mut self) -> Result<Option<ClientReply<'_>>, Error> {
        let Some(reply) = self.replies.next_reply()? else { return Ok(None) };
        let to = self.dialogue.reply(reply.code()).map(|(place, _)| place);
        Ok(Some(ClientReply { to, reply }))
    }
}

impl<T> Client<T> {
    /// As [`new`](Client::new), of a client that keeps a value for each command.
    pub fn with_values() -> Client<T> {
        Client::with_limit_and_values(REPLY_LIMIT)
    }

    /// As [`with_limit`](Client::with_limit), of a client that keeps a value for each command.
    pub fn with_limit_and_values(limit: usize) -> Client<T> {
        Client { replies: ReplyDecoder::with_limit(limit), dialogue: Dialogue::new() }
    }

    /// As [`send`](Client::send), of a command with a value.
    ///
    /// # Errors
    ///
    /// Those of [`send`](Client::send), each with the value.
    pub fn send_with(
        &mut self,
        command: &Command<'_>,
        value: T,
        output: &mut Vec<u8>,
    ) -> Result<u64, SendError<T>> {
        match command.to_line() {
            Ok(line) => self.send_line_with(&line, value, output),
            Err(error) => Err(SendError { error, value }),
        }
    }

    /// As [`send_line`](Client::send_line), of a line with a value.
    ///
    /// # Errors
    ///
    /// Those of [`send_line`](Client::send_line), each with the value.
    pub fn send_line_with(
        &mut self,
        line: &[u8],
        value: T,
        output: &mut Vec<u8>,
    ) -> Result<u64, SendError<T>> {
        if output.try_reserve(line.len()).is_err() {
            return Err(SendError { error: Error::OutOfMemory, value });
        }
        let place = self.dialogue.line(line, value)?;
        output.extend_from_slice(line);
        Ok(place)
    }

    /// Appends bytes that were received.
    ///
    /// # Errors
    ///
    /// [`Error::OutOfMemory`]; the pending bytes are then as before.
    pub fn receive(&mut self, bytes: &[u8]) -> Result<(), Error> {
        self.replies.push(bytes)
    }

    /// As [`next_reply`](Client::next_reply), with the value of the command that the reply is to: at
    /// a preliminary reply it is borrowed, and at the final one it is the caller's again.
    ///
    /// ```
    /// use unftp_control::{Client, Command, ReplyValue, To};
    ///
    /// let mut client = Client::with_values();
    /// let retr = Command::Retr { path: "a.txt".into() };
    /// client.send_with(&retr, Vec::new(), &mut Vec::new())?;
    /// client.receive(b"220 Ready\r\n110 MARK a = b\r\n150 Opening\r\n226 Done\r\n")?;
    /// let mut codes = None;
    /// while let Some(reply) = client.next_reply_with()? {
    ///     match reply.to {
    ///         To::Command(ReplyValue::Preliminary(before)) => before.push(reply.reply.code()),
    ///         To::Command(ReplyValue::Final(before)) => codes = Some((before, reply.reply.code())),
    ///         To::Greeting | To::Nothing => {}
    ///     }
    /// }
    /// assert_eq!(codes, Some((vec![110, 150], 226)));
    /// # Ok::<(), unftp_control::Error>(())
    /// ```
    ///
    /// # Errors
    ///
    /// Those of [`next_reply`](Client::next_reply).
    pub fn next_reply_with(&mut self) -> Result<Option<ClientReply<'_, ReplyValue<'_, T>>>, Error> {
        let Some(reply) = self.replies.next_reply()? else { return Ok(None) };
        let to = self.dialogue.reply(reply.code()).map(|(_, value)| value);
        Ok(Some(ClientReply { to, reply }))
    }

    /// The reply that [`next_reply_with`](Client::next_reply_with) takes, with the value of the
    /// command that it is to. It stays pending, and owed. So a proxy may hold it back, as until its
    /// own client has the data, and no answer gets before it.
    ///
    /// ```
    /// use unftp_control::{Client, Command, ReplyCode, To};
    ///
    /// let mut server = Client::with_values();
    /// let retr = Command::Retr { path: "a.txt".into() };
    /// server.send_with(&retr, "a download", &mut Vec::new())?;
    /// server.receive(b"220 Ready\r\n226 Done\r\n")?;
    /// server.next_reply_with()?;
    ///
    /// let held = server.first_reply_with()?.expect("a reply");
    /// assert_eq!((held.to, held.reply.code()), (To::Command(&"a download"), 226));
    /// assert!(server.take_line());
    /// assert!(!server.answer(ReplyCode::COMMAND_NOT_IMPLEMENTED));
    ///
    /// // the client has the data
    /// assert!(server.next_reply_with()?.is_some());
    /// assert!(server.answer(ReplyCode::COMMAND_NOT_IMPLEMENTED));
    /// # Ok::<(), unftp_control::Error>(())
    /// ```
    ///
    /// # Errors
    ///
    /// Those of [`next_reply`](Client::next_reply).
    pub fn first_reply_with(&mut self) -> Result<Option<ClientReply<'_, &T>>, Error> {
        let Some(reply) = self.replies.first_reply()? else { return Ok(None) };
        let to = self.dialogue.next_to(reply.code());
        Ok(Some(ClientReply { to, reply }))
    }

    /// Whether [`take_line`](Client::take_line) would return true.
    pub fn may_take_line(&self) -> bool {
        self.dialogue.may_take_line()
    }

    /// Notes that a proxy takes the next line of its own client, and returns true. The proxy then
    /// [sends](Client::send_line_with) a line for it, or [answers](Client::answer) it. It returns
    /// false, and nothing changes, where the line has to wait: the one before it is neither sent
    /// nor answered yet, or a line that asks for TLS awaits its reply (RFC 4217, section 4).
    #[must_use = "where it is false, the line is not taken"]
    pub fn take_line(&mut self) -> bool {
        self.dialogue.take_line()
    }

    /// Whether [`answer`](Client::answer) would return true.
    pub fn may_answer(&self, code: ReplyCode) -> bool {
        self.dialogue.may_answer(code)
    }

    /// Notes that a proxy answers the line that it has taken, by a reply with this code, and
    /// returns true: its client then has to get that reply. It returns false, and nothing changes,
    /// where no line is taken; where the server owes a reply, also the greeting; or where the code
    /// is preliminary, since another reply would have to follow (RFC 959, section 5.4).
    ///
    /// ```
    /// use unftp_control::{Client, ReplyCode};
    ///
    /// let (mut server, mut output) = (Client::new(), Vec::new());
    /// assert!(server.take_line());
    /// server.send_line(b"NOOP\r\n", &mut output)?;
    ///
    /// // the proxy doesn't send the next line, and its answer has to wait
    /// assert!(server.take_line());
    /// assert!(!server.answer(ReplyCode::COMMAND_NOT_IMPLEMENTED));
    /// assert!(!server.may_take_line());
    ///
    /// // the client gets the greeting and the reply to NOOP, and then the answer
    /// server.receive(b"220 Ready\r\n200 OK\r\n")?;
    /// while server.next_reply()?.is_some() {}
    /// assert!(server.answer(ReplyCode::COMMAND_NOT_IMPLEMENTED));
    /// # Ok::<(), unftp_control::Error>(())
    /// ```
    #[must_use = "where it is false, the client is not to get the reply yet"]
    pub fn answer(&mut self, code: ReplyCode) -> bool {
        self.dialogue.answer(code)
    }

    /// The values of the commands that are owed their final reply, in the order in which they were
    /// sent.
    pub fn values(&self) -> impl DoubleEndedIterator<Item = &T> + ExactSizeIterator + '_ {
        self.dialogue.values()
    }

    /// The same values, to change them.
    pub fn values_mut(
        &mut self,
    ) -> impl DoubleEndedIterator<Item = &mut T> + ExactSizeIterator + '_ {
        self.dialogue.values_mut()
    }

    /// The same values, at the end of the connection.
    pub fn into_values(self) -> impl DoubleEndedIterator<Item = T> + ExactSizeIterator {
        self.dialogue.into_values()
    }

    /// Whether the greeting is complete: its final reply was taken, whatever its code, as 220 or a
    /// 421 of a server that closes the connection.
    pub fn is_greeted(&self) -> bool {
        self.dialogue.is_greeted()
    }

    /// How many commands were sent: the place of the next one.
    pub fn sent(&self) -> u64 {
        self.dialogue.sent()
    }

    /// How many commands are owed their final reply.
    pub fn owed(&self) -> u64 {
        self.dialogue.owed()
    }

    /// Whether TLS may begin: the last reply was a 234 to the last command, which asks for TLS, and
    /// no byte is pending (RFC 4217, section 4). Where bytes are pending after that 234, end the
    /// connection: nothing that came in clear text is read under TLS.
    pub fn tls_agreed(&self) -> bool {
        self.dialogue.may_begin_tls(self.bytes().len())
    }

    /// The bytes that are pending.
    pub fn bytes(&self) -> &[u8] {
        self.replies.bytes()
    }
}

impl<T> Default for Client<T> {
    fn default() -> Client<T> {
        Client::with_values()
    }
}
