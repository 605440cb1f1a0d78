//! The calls of the C library as safe functions over slices. No other module has unsafe code.
//!
//! The header asks two things of a caller, and Rust's references keep them:
//!
//! - No pointer is null, also where the length beside it is 0. The pointer of an empty slice may
//!   dangle, but is never null, and it is to as many bytes as its length says: none.
//! - What a call writes overlaps nothing else that it is given. All that is written is borrowed
//!   mutably, and so apart from everything else; an area of no bytes overlaps nothing.
//!
//! `enum unftp_result` has no negative number, and C gives such an enum the form of a `u32`.
//!
//! Beside the calls, `text` is unsafe. That a text of `unftp_next` is UTF-8 is proved, and not
//! checked again; by the types `Taken` and `Given` it is read as that call has left it.
//!
//! Numbers and structs are those of the header of one version. The names of the calls in the text of
//! `generated/` carry the version of this crate, so no other version is linked. With the feature
//! `system` the first call asks which version the library is of, and panics where that doesn't fit.
use crate::area::grow;
use crate::error::Error;
use crate::version::{self, fits, needed};
use std::str;
use std::sync::OnceLock;

pub(crate) const DONE: u32 = 0;
pub(crate) const MORE: u32 = 101;
pub(crate) const INVALID_COMMAND: u32 = 102;
pub(crate) const INVALID_UTF8: u32 = 103;
pub(crate) const INVALID_EOL: u32 = 104;
pub(crate) const LINE_TOO_LONG: u32 = 105;
pub(crate) const OUT_OF_MEMORY: u32 = 106;
pub(crate) const NO_ROOM: u32 = 107;
pub(crate) const NO_LINE: u32 = 108;
pub(crate) const MALFORMED: u32 = 109;
pub(crate) const INVALID_ARGUMENT: u32 = 111;
pub(crate) const NO_ADDRESS: u32 = 112;
pub(crate) const UNKNOWN_PROTOCOL: u32 = 113;
pub(crate) const REPLY_TOO_LONG: u32 = 114;

/// What `unftp_client_reply` returns.
pub(crate) const TO_GREETING: u32 = 0;
pub(crate) const TO_COMMAND: u32 = 1;
pub(crate) const TO_NOTHING: u32 = 2;

/// What `unftp_login_event` returns.
pub(crate) const LOGIN_PASS_ON: u32 = 0;
pub(crate) const LOGIN_ASK_ACCOUNTS: u32 = 2;
pub(crate) const LOGIN_NEED_NAME: u32 = 3;

/// What `unftp_read_address` and `unftp_write_address` are told of a text.
pub(crate) const ADDRESS_PORT: u32 = 0;
pub(crate) const ADDRESS_EPRT: u32 = 1;
pub(crate) const ADDRESS_227: u32 = 2;
pub(crate) const ADDRESS_229: u32 = 3;

/// `struct unftp_connection`.
#[repr(C)]
#[derive(Clone, Debug, Default)]
pub(crate) struct Connection {
    pub(crate) limit: usize,
    pub(crate) offset: usize,
    pub(crate) skipping: u32,
}

/// `struct unftp_line`.
#[repr(C)]
#[derive(Clone, Default)]
pub(crate) struct Line {
    used: usize,
    name_len: usize,
    value_len: usize,
    value_at: usize,
}

/// `struct unftp_found_reply`.
#[repr(C)]
#[derive(Default)]
pub(crate) struct FoundReply {
    pub(crate) used: usize,
    pub(crate) code: u32,
}

/// `struct unftp_reply_search`.
#[repr(C)]
#[derive(Clone, Debug, Default)]
pub(crate) struct ReplySearch {
    pub(crate) limit: usize,
    pub(crate) line: usize,
    pub(crate) offset: usize,
}

/// `struct unftp_reply_line`.
#[repr(C)]
#[derive(Default)]
pub(crate) struct ReplyLine {
    pub(crate) text_at: usize,
    pub(crate) text_len: usize,
    pub(crate) next: usize,
}

/// `struct unftp_client`. A call on a copy notes nothing.
#[repr(C)]
#[derive(Clone, Copy, Debug, Default)]
pub(crate) struct Client {
    pub(crate) sent: u64,
    pub(crate) answered: u64,
    pub(crate) asked: u64,
    pub(crate) greeted: u32,
    pub(crate) asks: u32,
    pub(crate) agreed: u32,
    pub(crate) taken: u32,
}

/// `struct unftp_file`.
#[repr(C)]
pub(crate) struct File {
    pub(crate) size: u64,
    pub(crate) modified: i64,
    pub(crate) has_modified: u32,
    pub(crate) kind: u32,
    pub(crate) mode: u32,
    pub(crate) links: u32,
    pub(crate) uid: u32,
    pub(crate) gid: u32,
}

/// `struct unftp_login`.
#[repr(C)]
#[derive(Clone, Debug, Default)]
pub(crate) struct Login {
    pub(crate) stage: u32,
}

/// `struct unftp_address`.
#[repr(C)]
#[derive(Default)]
pub(crate) struct Address {
    pub(crate) ip_len: usize,
    pub(crate) port: u32,
}

/// The name of a call in the text of `generated/`: `unftp_0_4_0_next` for `unftp_next`, in version
/// 0.4.0.
#[cfg(not(feature = "system"))]
macro_rules! own_name {
    ($call:literal) => {
        concat!(
            "unftp_",
            env!("CARGO_PKG_VERSION_MAJOR"),
            "_",
            env!("CARGO_PKG_VERSION_MINOR"),
            "_",
            env!("CARGO_PKG_VERSION_PATCH"),
            "_",
            $call
        )
    };
}

extern "C" {
    #[cfg_attr(not(feature = "system"), link_name = own_name!("next"))]
    fn unftp_next(
        connection: *mut Connection,
        bytes: *const u8,
        bytes_len: usize,
        area: *mut u8,
        area_room: usize,
        line: *mut Line,
    ) -> u32;

    #[cfg_attr(not(feature = "system"), link_name = own_name!("parameter"))]
    fn unftp_parameter(
        line: *const u8,
        line_len: usize,
        out: *mut u8,
        out_room: usize,
        len: *mut usize,
    ) -> u32;

    #[cfg_attr(not(feature = "system"), link_name = own_name!("list_path"))]
    fn unftp_list_path(
        line: *const u8,
        line_len: usize,
        out: *mut u8,
        out_room: usize,
        len: *mut usize,
    ) -> u32;

    #[cfg_attr(not(feature = "system"), link_name = own_name!("reply"))]
    fn unftp_reply(
        code: u32,
        text: *const u8,
        text_len: usize,
        out: *mut u8,
        out_room: usize,
        len: *mut usize,
    ) -> u32;

    #[cfg_attr(not(feature = "system"), link_name = own_name!("quoted_path"))]
    fn unftp_quoted_path(
        path: *const u8,
        path_len: usize,
        out: *mut u8,
        out_room: usize,
        len: *mut usize,
    ) -> u32;

    #[cfg_attr(not(feature = "system"), link_name = own_name!("usual_reply"))]
    fn unftp_usual_reply(
        event: u32,
        value: *const u8,
        value_len: usize,
        out: *mut u8,
        out_room: usize,
        len: *mut usize,
    ) -> u32;

    #[cfg_attr(not(feature = "system"), link_name = own_name!("front_reply"))]
    fn unftp_front_reply(bytes: *const u8, bytes_len: usize, reply: *mut FoundReply) -> u32;

    #[cfg_attr(not(feature = "system"), link_name = own_name!("next_reply"))]
    fn unftp_next_reply(
        search: *mut ReplySearch,
        bytes: *const u8,
        bytes_len: usize,
        reply: *mut FoundReply,
    ) -> u32;

    #[cfg_attr(not(feature = "system"), link_name = own_name!("next_reply_line"))]
    fn unftp_next_reply_line(bytes: *const u8, bytes_len: usize, line: *mut ReplyLine) -> u32;

    #[cfg_attr(not(feature = "system"), link_name = own_name!("canonical"))]
    fn unftp_canonical(
        line: *const u8,
        line_len: usize,
        out: *mut u8,
        out_room: usize,
        len: *mut usize,
    ) -> u32;

    #[cfg_attr(not(feature = "system"), link_name = own_name!("forward"))]
    fn unftp_forward(
        line: *const u8,
        line_len: usize,
        out: *mut u8,
        out_room: usize,
        len: *mut usize,
        clear: *mut u32,
    ) -> u32;

    #[cfg_attr(not(feature = "system"), link_name = own_name!("is_clear"))]
    fn unftp_is_clear(line: *const u8, line_len: usize) -> u32;

    #[cfg_attr(not(feature = "system"), link_name = own_name!("log_line"))]
    fn unftp_log_line(
        number: u32,
        line: *const u8,
        line_len: usize,
        out: *mut u8,
        out_room: usize,
        len: *mut usize,
        hides: *mut u32,
    ) -> u32;

    #[cfg_attr(not(feature = "system"), link_name = own_name!("log_exchange"))]
    fn unftp_log_exchange(
        shown: *const u8,
        shown_len: usize,
        replies: *const u8,
        replies_len: usize,
        out: *mut u8,
        out_room: usize,
        len: *mut usize,
    ) -> u32;

    #[cfg_attr(not(feature = "system"), link_name = own_name!("client_line"))]
    fn unftp_client_line(
        client: *mut Client,
        line: *const u8,
        line_len: usize,
        place: *mut u64,
    ) -> u32;

    #[cfg_attr(not(feature = "system"), link_name = own_name!("client_reply"))]
    fn unftp_client_reply(client: *mut Client, code: u32, place: *mut u64) -> u32;

    #[cfg_attr(not(feature = "system"), link_name = own_name!("client_take"))]
    fn unftp_client_take(client: *mut Client) -> u32;

    #[cfg_attr(not(feature = "system"), link_name = own_name!("client_answer"))]
    fn unftp_client_answer(client: *mut Client, code: u32) -> u32;

    #[cfg_attr(not(feature = "system"), link_name = own_name!("client_owed"))]
    fn unftp_client_owed(client: *const Client) -> u64;

    #[cfg_attr(not(feature = "system"), link_name = own_name!("client_may_begin_tls"))]
    fn unftp_client_may_begin_tls(client: *const Client, pending: usize) -> u32;

    #[cfg_attr(not(feature = "system"), link_name = own_name!("login_event"))]
    fn unftp_login_event(login: *mut Login, event: u32) -> u32;

    #[cfg_attr(not(feature = "system"), link_name = own_name!("login_answer"))]
    fn unftp_login_answer(login: *mut Login, accepted: u32) -> u32;

    #[cfg_attr(not(feature = "system"), link_name = own_name!("login_reply"))]
    fn unftp_login_reply(
        step: u32,
        accepted: u32,
        out: *mut u8,
        out_room: usize,
        len: *mut usize,
    ) -> u32;

    #[cfg_attr(not(feature = "system"), link_name = own_name!("read_address"))]
    fn unftp_read_address(
        form: u32,
        text: *const u8,
        text_len: usize,
        ip: *mut u8,
        ip_room: usize,
        address: *mut Address,
    ) -> u32;

    #[cfg_attr(not(feature = "system"), link_name = own_name!("write_address"))]
    fn unftp_write_address(
        form: u32,
        ip: *const u8,
        ip_len: usize,
        port: u32,
        out: *mut u8,
        out_room: usize,
        len: *mut usize,
    ) -> u32;

    #[cfg_attr(not(feature = "system"), link_name = own_name!("facts_line"))]
    fn unftp_facts_line(
        file: *const File,
        name: *const u8,
        name_len: usize,
        out: *mut u8,
        out_room: usize,
        len: *mut usize,
    ) -> u32;

    #[cfg_attr(not(feature = "system"), link_name = own_name!("list_line"))]
    fn unftp_list_line(
        file: *const File,
        now: i64,
        name: *const u8,
        name_len: usize,
        out: *mut u8,
        out_room: usize,
        len: *mut usize,
    ) -> u32;

    #[cfg_attr(not(feature = "system"), link_name = own_name!("version"))]
    fn unftp_version() -> u32;
}

/// Panics where the installed library that is linked is of another series.
fn check_version() {
    static CHECKED: OnceLock<()> = OnceLock::new();
    if cfg!(not(feature = "system")) {
        return;
    }
    CHECKED.get_or_init(|| {
        let found = version();
        assert!(
            fits(found),
            "the crate unftp_control is linked with a library of version {}, and needs {}",
            version::text(found),
            needed()
        );
    });
}

/// What `unftp_next` is passed again with each call of a connection, and where it writes.
#[derive(Clone, Default)]
pub(crate) struct State {
    pub(crate) connection: Connection,
    // it stays where a call writes it: moved, it would be read in larger parts than it was written,
    // for which a processor waits
    line: Line,
    area: Vec<u8>,
}

impl State {
    /// At the start of a connection.
    pub(crate) fn new(connection: Connection) -> State {
        State { connection, ..State::default() }
    }

    /// Calls `unftp_next`.
    #[inline]
    pub(crate) fn next<'a>(&'a mut self, pending: &'a [u8]) -> Taken<'a> {
        check_version();
        let State { connection, line, area } = self;
        // SAFETY: no pointer is null, since each is of a reference, and each length is that of the
        // slice beside it. Nothing overlaps: the connection, the area and the line are mutably
        // borrowed. The structs have the header's fields in its order.
        let number = unsafe {
            unftp_next(
                connection,
                pending.as_ptr(),
                pending.len(),
                area.as_mut_ptr(),
                area.len(),
                line,
            )
        };
        Taken { number, pending, state: self }
    }

    /// How many bytes the area has.
    pub(crate) fn room(&self) -> usize {
        self.area.len()
    }
}

/// What a call of `unftp_next` has taken. It borrows the pending bytes of that call and the area:
/// neither is changed before its texts are read.
// its fields are of this module only: no other makes one
pub(crate) struct Taken<'a> {
    number: u32,
    pending: &'a [u8],
    state: &'a mut State,
}

impl<'a> Taken<'a> {
    /// What the call returned.
    #[inline]
    pub(crate) fn number(&self) -> u32 {
        self.number
    }

    /// How many bytes it used up.
    #[inline]
    pub(crate) fn used(&self) -> usize {
        self.state.line.used
    }

    /// How many bytes the area has.
    pub(crate) fn room(&self) -> usize {
        self.state.room()
    }

    /// How many bytes the area needs at `NO_ROOM`.
    pub(crate) fn needed(&self) -> usize {
        let Line { name_len, value_len, value_at, .. } = self.state.line;
        name_len + if value_at == 0 { value_len } else { 0 }
    }

    /// Calls again, with an area of at least so many bytes.
    pub(crate) fn retry(self, room: usize) -> Result<Taken<'a>, Error> {
        grow(&mut self.state.area, room)?;
        Ok(self.state.next(self.pending))
    }

    /// The name and the value of the command that the call returned.
    #[inline]
    pub(crate) fn given(self) -> Given<'a> {
        let Taken { number, pending, state: State { line, area, .. } } = self;
        let (name, after_name) = area.split_at(line.name_len);
        let from = if line.value_at == 0 { after_name } else { &pending[line.value_at..] };
        Given { number, name, value: &from[..line.value_len] }
    }
}

/// A command as `unftp_next` gives it.
// its fields are of this module only: the number is that of the call that gave name and value
#[derive(Clone, Copy)]
pub(crate) struct Given<'a> {
    number: u32,
    name: &'a [u8],
    value: &'a [u8],
}

impl<'a> Given<'a> {
    /// Its number in the header.
    #[inline]
    pub(crate) fn number(self) -> u32 {
        self.number
    }

    /// Its value.
    #[inline]
    pub(crate) fn value(self) -> &'a [u8] {
        self.value
    }

    /// Its value, which has to be a text.
    #[inline]
    pub(crate) fn value_text(self) -> &'a str {
        assert!(is_command(self.number) && !has_any_bytes(self.number), "the value is a text");
        // SAFETY: one call gave the number and the value, and the number is that of a text.
        unsafe { text(self.value) }
    }

    /// Its name.
    #[inline]
    pub(crate) fn name_text(self) -> &'a str {
        assert!(is_command(self.number), "only a command has a name");
        // SAFETY: one call gave the number and the name, and the number is that of a command.
        unsafe { text(self.name) }
    }
}

/// Whether a call has given a command: the other numbers that it returns begin with `MORE`.
#[inline]
fn is_command(number: u32) -> bool {
    number < MORE
}

/// Whether the value of this command may have any bytes: USER, PASS, ACCT and STAT.
#[inline]
fn has_any_bytes(number: u32) -> bool {
    matches!(number, 1 | 2 | 3 | 5)
}

/// The text of these bytes, which are checked only in a debug build.
///
/// # Safety
///
/// They have to be the name that `unftp_next` has given of a command, or the value of one that is
/// not of `has_any_bytes`. Then they are UTF-8, by the clause `texts` of its contract
/// (crates/unftp_control_c/src/next.rt).
#[inline]
unsafe fn text(bytes: &[u8]) -> &str {
    debug_assert!(str::from_utf8(bytes).is_ok(), "`texts` of unftp_next: they are UTF-8");
    // SAFETY: the caller's promise.
    unsafe { str::from_utf8_unchecked(bytes) }
}

/// Calls `unftp_parameter`: what it returns, and the length.
pub(crate) fn parameter(line: &[u8], out: &mut [u8]) -> (u32, usize) {
    check_version();
    let mut len = 0;
    // SAFETY: no pointer is null, since each is of a reference, and each length is that of the
    // slice beside it. Nothing overlaps: `out` is mutably borrowed, and `len` is a variable here.
    let status = unsafe {
        unftp_parameter(line.as_ptr(), line.len(), out.as_mut_ptr(), out.len(), &mut len)
    };
    (status, len)
}

/// Calls `unftp_list_path`: what it returns, and the length.
pub(crate) fn list_path(line: &[u8], out: &mut [u8]) -> (u32, usize) {
    check_version();
    let mut len = 0;
    // SAFETY: no pointer is null, since each is of a reference, and each length is that of the
    // slice beside it. Nothing overlaps: `out` is mutably borrowed, and `len` is a variable here.
    let status = unsafe {
        unftp_list_path(line.as_ptr(), line.len(), out.as_mut_ptr(), out.len(), &mut len)
    };
    (status, len)
}

/// Calls `unftp_reply`: what it returns, and the length.
pub(crate) fn reply(code: u32, text: &[u8], out: &mut [u8]) -> (u32, usize) {
    check_version();
    let mut len = 0;
    // SAFETY: no pointer is null, since each is of a reference, and each length is that of the
    // slice beside it. Nothing overlaps: `out` is mutably borrowed, and `len` is a variable here.
    let status = unsafe {
        unftp_reply(code, text.as_ptr(), text.len(), out.as_mut_ptr(), out.len(), &mut len)
    };
    (status, len)
}

/// Calls `unftp_quoted_path`: what it returns, and the length.
pub(crate) fn quoted_path(path: &[u8], out: &mut [u8]) -> (u32, usize) {
    check_version();
    let mut len = 0;
    // SAFETY: no pointer is null, since each is of a reference, and each length is that of the
    // slice beside it. Nothing overlaps: `out` is mutably borrowed, and `len` is a variable here.
    let status = unsafe {
        unftp_quoted_path(path.as_ptr(), path.len(), out.as_mut_ptr(), out.len(), &mut len)
    };
    (status, len)
}

/// Calls `unftp_usual_reply`: what it returns, and the length.
pub(crate) fn usual_reply(event: u32, value: &[u8], out: &mut [u8]) -> (u32, usize) {
    check_version();
    let mut len = 0;
    // SAFETY: no pointer is null, since each is of a reference, and each length is that of the
    // slice beside it. Nothing overlaps: `out` is mutably borrowed, and `len` is a variable here.
    let status = unsafe {
        unftp_usual_reply(event, value.as_ptr(), value.len(), out.as_mut_ptr(), out.len(), &mut len)
    };
    (status, len)
}

/// Calls `unftp_front_reply`: what it returns, and the reply.
pub(crate) fn front_reply(bytes: &[u8]) -> (u32, FoundReply) {
    check_version();
    let mut reply = FoundReply::default();
    // SAFETY: no pointer is null, since each is of a reference, and the length is that of the
    // slice. Nothing overlaps: `reply` is a variable of this function, and has the header's form.
    let status = unsafe { unftp_front_reply(bytes.as_ptr(), bytes.len(), &mut reply) };
    (status, reply)
}

/// Calls `unftp_next_reply`: what it returns, and the reply.
pub(crate) fn next_reply(search: &mut ReplySearch, bytes: &[u8]) -> (u32, FoundReply) {
    check_version();
    let mut reply = FoundReply::default();
    // SAFETY: no pointer is null, since each is of a reference, and the length is that of the
    // slice. Nothing overlaps: `search` is mutably borrowed, `reply` is a variable of this
    // function, and both have the header's form.
    let status = unsafe { unftp_next_reply(search, bytes.as_ptr(), bytes.len(), &mut reply) };
    (status, reply)
}

/// Calls `unftp_next_reply_line`: what it returns.
pub(crate) fn next_reply_line(bytes: &[u8], line: &mut ReplyLine) -> u32 {
    check_version();
    // SAFETY: no pointer is null, since each is of a reference, and the length is that of the
    // slice. Nothing overlaps: `line` is mutably borrowed, and has the header's form.
    unsafe { unftp_next_reply_line(bytes.as_ptr(), bytes.len(), line) }
}

/// Calls `unftp_canonical`: what it returns, and the length.
pub(crate) fn canonical(line: &[u8], out: &mut [u8]) -> (u32, usize) {
    check_version();
    let mut len = 0;
    // SAFETY: no pointer is null, since each is of a reference, and each length is that of the
    // slice beside it. Nothing overlaps: `out` is mutably borrowed, and `len` is a variable here.
    let status = unsafe {
        unftp_canonical(line.as_ptr(), line.len(), out.as_mut_ptr(), out.len(), &mut len)
    };
    (status, len)
}

/// Calls `unftp_forward`: what it returns, the length, and whether what is written is clear.
pub(crate) fn forward(line: &[u8], out: &mut [u8]) -> (u32, usize, bool) {
    check_version();
    let (mut len, mut clear) = (0, 0);
    // SAFETY: no pointer is null, since each is of a reference, and each length is that of the
    // slice beside it. Nothing overlaps: `out` is mutably borrowed, and `len` and `clear` are
    // variables here.
    let status = unsafe {
        unftp_forward(line.as_ptr(), line.len(), out.as_mut_ptr(), out.len(), &mut len, &mut clear)
    };
    (status, len, clear != 0)
}

/// Calls `unftp_is_clear`.
pub(crate) fn is_clear(line: &[u8]) -> bool {
    check_version();
    // SAFETY: no pointer is null, since it is of a reference, and the length is that of the slice.
    unsafe { unftp_is_clear(line.as_ptr(), line.len()) != 0 }
}

/// Calls `unftp_log_line`: what it returns, the length, and whether a part of the line is hidden.
pub(crate) fn log_line(number: u32, line: &[u8], out: &mut [u8]) -> (u32, usize, bool) {
    check_version();
    let (mut len, mut hides) = (0, 0);
    // SAFETY: no pointer is null, since each is of a reference, and each length is that of the
    // slice beside it. Nothing overlaps: `out` is mutably borrowed, and `len` and `hides` are
    // variables here.
    let status = unsafe {
        unftp_log_line(
            number,
            line.as_ptr(),
            line.len(),
            out.as_mut_ptr(),
            out.len(),
            &mut len,
            &mut hides,
        )
    };
    (status, len, hides != 0)
}

/// Calls `unftp_log_exchange`: what it returns, and the length.
pub(crate) fn log_exchange(shown: &str, replies: &[u8], out: &mut [u8]) -> (u32, usize) {
    check_version();
    let mut len = 0;
    // SAFETY: no pointer is null, since each is of a reference, and each length is that of the
    // slice beside it. Nothing overlaps: `out` is mutably borrowed, and `len` is a variable here.
    let status = unsafe {
        unftp_log_exchange(
            shown.as_ptr(),
            shown.len(),
            replies.as_ptr(),
            replies.len(),
            out.as_mut_ptr(),
            out.len(),
            &mut len,
        )
    };
    (status, len)
}

/// Calls `unftp_client_line`: what it returns, and the place.
pub(crate) fn client_line(client: &mut Client, line: &[u8]) -> (u32, u64) {
    check_version();
    let mut place = 0;
    // SAFETY: no pointer is null, since each is of a reference, and the length is that of the
    // slice. Nothing overlaps: the client is mutably borrowed, and has the header's form, and
    // `place` is a variable of this function.
    let status = unsafe { unftp_client_line(client, line.as_ptr(), line.len(), &mut place) };
    (status, place)
}

/// Calls `unftp_client_reply`: what it returns, and the place.
pub(crate) fn client_reply(client: &mut Client, code: u32) -> (u32, u64) {
    check_version();
    let mut place = 0;
    // SAFETY: no pointer is null, since each is of a reference. They don't overlap: the client is
    // mutably borrowed, and has the header's form, and `place` is a variable of this function.
    let to = unsafe { unftp_client_reply(client, code, &mut place) };
    (to, place)
}

/// Calls `unftp_client_take`: whether a line was taken.
pub(crate) fn client_take(client: &mut Client) -> bool {
    check_version();
    // SAFETY: the pointer is of a mutable reference, and the struct has the header's form.
    unsafe { unftp_client_take(client) != 0 }
}

/// Calls `unftp_client_answer`: whether the answer was noted.
pub(crate) fn client_answer(client: &mut Client, code: u32) -> bool {
    check_version();
    // SAFETY: the pointer is of a mutable reference, and the struct has the header's form.
    unsafe { unftp_client_answer(client, code) != 0 }
}

/// Calls `unftp_client_owed`.
pub(crate) fn client_owed(client: &Client) -> u64 {
    check_version();
    // SAFETY: the pointer is of a reference, and the struct has the header's form.
    unsafe { unftp_client_owed(client) }
}

/// Calls `unftp_client_may_begin_tls`.
pub(crate) fn client_may_begin_tls(client: &Client, pending: usize) -> bool {
    check_version();
    // SAFETY: the pointer is of a reference, and the struct has the header's form.
    unsafe { unftp_client_may_begin_tls(client, pending) != 0 }
}

/// Calls `unftp_login_event`.
pub(crate) fn login_event(login: &mut Login, event: u32) -> u32 {
    check_version();
    // SAFETY: the pointer is of a mutable reference, and the struct has the header's form.
    unsafe { unftp_login_event(login, event) }
}

/// Calls `unftp_login_answer`.
pub(crate) fn login_answer(login: &mut Login, accepted: bool) -> u32 {
    check_version();
    // SAFETY: the pointer is of a mutable reference, and the struct has the header's form.
    unsafe { unftp_login_answer(login, u32::from(accepted)) }
}

/// Calls `unftp_login_reply`: what it returns, and the length.
pub(crate) fn login_reply(step: u32, accepted: bool, out: &mut [u8]) -> (u32, usize) {
    check_version();
    let mut len = 0;
    // SAFETY: no pointer is null, since each is of a reference, and the length is that of the slice.
    // Nothing overlaps: `out` is mutably borrowed, and `len` is a variable here.
    let status = unsafe {
        unftp_login_reply(step, u32::from(accepted), out.as_mut_ptr(), out.len(), &mut len)
    };
    (status, len)
}

/// Calls `unftp_read_address`: what it returns, and the address.
pub(crate) fn read_address(form: u32, text: &[u8], ip: &mut [u8]) -> (u32, Address) {
    check_version();
    let mut address = Address::default();
    // SAFETY: no pointer is null, since each is of a reference, and each length is that of the
    // slice beside it. Nothing overlaps: `ip` is mutably borrowed, and `address` is a variable of
    // this function, and has the header's form.
    let status = unsafe {
        unftp_read_address(form, text.as_ptr(), text.len(), ip.as_mut_ptr(), ip.len(), &mut address)
    };
    (status, address)
}

/// Calls `unftp_write_address`: what it returns, and the length.
pub(crate) fn write_address(form: u32, ip: &[u8], port: u16, out: &mut [u8]) -> (u32, usize) {
    check_version();
    let (port, mut len) = (u32::from(port), 0);
    // SAFETY: no pointer is null, since each is of a reference, and each length is that of the
    // slice beside it. Nothing overlaps: `out` is mutably borrowed, and `len` is a variable here.
    let status = unsafe {
        unftp_write_address(
            form,
            ip.as_ptr(),
            ip.len(),
            port,
            out.as_mut_ptr(),
            out.len(),
            &mut len,
        )
    };
    (status, len)
}

/// Calls `unftp_facts_line`: what it returns, and the length.
pub(crate) fn facts_line(file: &File, name: &[u8], out: &mut [u8]) -> (u32, usize) {
    check_version();
    let mut len = 0;
    // SAFETY: no pointer is null, since each is of a reference, and each length is that of the
    // slice beside it. The file has the header's form. Nothing overlaps: `out` is mutably borrowed,
    // and `len` is a variable here.
    let status = unsafe {
        unftp_facts_line(file, name.as_ptr(), name.len(), out.as_mut_ptr(), out.len(), &mut len)
    };
    (status, len)
}

/// Calls `unftp_list_line`: what it returns, and the length.
pub(crate) fn list_line(file: &File, now: i64, name: &[u8], out: &mut [u8]) -> (u32, usize) {
    check_version();
    let mut len = 0;
    // SAFETY: no pointer is null, since each is of a reference, and each length is that of the
    // slice beside it. The file has the header's form. Nothing overlaps: `out` is mutably borrowed,
    // and `len` is a variable here.
    let status = unsafe {
        unftp_list_line(file, now, name.as_ptr(), name.len(), out.as_mut_ptr(), out.len(), &mut len)
    };
    (status, len)
}

/// Calls `unftp_version`.
pub(crate) fn version() -> u32 {
    // SAFETY: in every version it takes nothing, and returns a number.
    unsafe { unftp_version() }
}
