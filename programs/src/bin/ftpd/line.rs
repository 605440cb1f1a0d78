//! What the bytes of a line have beside its command.
use crate::replies;
use unftp_control::{OwnedLine, Reply};

/// The value of the line's parameter: a name as it was sent, where the text of a command has U+FFFD
/// for what is not UTF-8.
pub fn parameter(line: &OwnedLine) -> Result<Vec<u8>, Reply> {
    line.parameter().map_err(replies::of_line_error)
}

/// The path of LIST or NLST: what is after its options, as those of `ls`.
pub fn list_path(line: &OwnedLine) -> Result<Vec<u8>, Reply> {
    line.list_path().map_err(replies::of_line_error)
}

/// The value of the parameter of a subcommand of SITE.
pub fn subcommand_parameter(line: &OwnedLine) -> Result<Vec<u8>, Reply> {
    let after_site = line.bytes.get(b"SITE ".len()..).unwrap_or_default();
    unftp_control::parameter(after_site).map_err(replies::of_line_error)
}

/// With CR NUL for each CR, as a reply has a name (RFC 854).
pub fn with_nul(text: &[u8]) -> Vec<u8> {
    let mut sent = Vec::with_capacity(text.len());
    for byte in text {
        sent.push(*byte);
        if *byte == b'\r' {
            sent.push(0);
        }
    }
    sent
}

/// The first word, and what is after it and one space.
pub fn first_word(text: &[u8]) -> (&[u8], &[u8]) {
    let end = text.iter().position(|byte| *byte == b' ').unwrap_or(text.len());
    let (word, after) = text.split_at(end);
    (word, after.strip_prefix(b" ").unwrap_or_default())
}

#[cfg(test)]
mod tests {
    use super::*;

    #[test]
    fn a_carriage_return_is_sent_with_nul() {
        assert_eq!(with_nul(b"a\r\xe9\r"), b"a\r\0\xe9\r\0");
    }
}
