//! What `Debug` shows of a verb or a subcommand of SITE that has no variant of its own. It may be a
//! mistyped PASS, or hold a password: so names are shown that a log shows, and nothing else.
use crate::log;
use std::fmt::{self, Debug, Formatter};

/// A text between quotes, or asterisks in its place.
pub(crate) struct Shown<'a>(Option<&'a str>);

impl Debug for Shown<'_> {
    fn fmt(&self, f: &mut Formatter<'_>) -> fmt::Result {
        match self.0 {
            Some(text) => text.fmt(f),
            None => f.write_str("***"),
        }
    }
}

/// What is shown of a verb and its arguments: of these nothing.
pub(crate) fn verb<'a>(name: &'a str) -> (Shown<'a>, Shown<'a>) {
    let is_listed = is_word(name) && logged(name) == format!("{name} ***");
    (Shown(is_listed.then_some(name)), Shown(None))
}

/// What is shown of a subcommand of SITE and its arguments.
pub(crate) fn subcommand<'a>(name: &'a str, arguments: &'a str) -> (Shown<'a>, Shown<'a>) {
    let text = if is_word(name) { logged(&format!("SITE {name} a")) } else { String::new() };
    let is_plain = text == format!("SITE {name} a");
    let is_listed = is_plain || text == format!("SITE {name} ***");
    (Shown(is_listed.then_some(name)), Shown(is_plain.then_some(arguments)))
}

/// Whether it is letters and digits, as each name that a log shows.
fn is_word(name: &str) -> bool {
    !name.is_empty() && name.bytes().all(|byte| byte.is_ascii_alphanumeric())
}

/// What a log shows of a line of this text; nothing when out of memory.
fn logged(text: &str) -> String {
    log::shown(0, format!("{text}\r\n").as_bytes()).map(String::from).unwrap_or_default()
}
