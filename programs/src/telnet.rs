//! Telnet's commands on a control connection (RFC 854). A client that aborts sends Interrupt Process
//! and Synch before ABOR (RFC 959, section 4.1.3), and an FTP line begins after them.
use bytes::BytesMut;

const IAC: u8 = 255;
/// WILL, WON'T, DO and DON'T, which an option follows.
const NEGOTIATIONS: std::ops::RangeInclusive<u8> = 251..=254;

/// Takes Telnet's commands away at the start of each line, however the input is split.
#[derive(Clone, Debug, Default)]
pub struct Telnet {
    place: Place,
}

/// What comes before the next byte.
#[derive(Clone, Copy, Debug, Default)]
enum Place {
    /// A line feed, or nothing.
    #[default]
    LineStart,
    /// IAC at the start of a line.
    Command,
    /// IAC and a negotiation.
    Negotiation,
    /// Bytes of a line.
    Line,
}

impl Telnet {
    /// Takes them away from the bytes after the first `from`, which were received after all before.
    pub fn strip(&mut self, bytes: &mut BytesMut, from: usize) {
        let mut kept = from;
        for index in from..bytes.len() {
            let byte = bytes[index];
            if self.keeps(byte) {
                bytes[kept] = byte;
                kept += 1;
            }
        }
        bytes.truncate(kept);
    }

    /// Takes the next byte: whether it is of a line.
    fn keeps(&mut self, byte: u8) -> bool {
        let (place, is_kept) = match (self.place, byte) {
            (Place::LineStart, IAC) => (Place::Command, false),
            // Two of them are the byte 255 of a line.
            (Place::Command, IAC) => (Place::Line, true),
            (Place::Command, byte) if NEGOTIATIONS.contains(&byte) => (Place::Negotiation, false),
            (Place::Command | Place::Negotiation, _) => (Place::LineStart, false),
            (Place::LineStart | Place::Line, b'\n') => (Place::LineStart, true),
            (Place::LineStart | Place::Line, _) => (Place::Line, true),
        };
        self.place = place;
        is_kept
    }
}

#[cfg(test)]
mod tests {
    use super::*;

    const INPUT: &[u8] = b"\xff\xf4\xff\xf2ABOR\r\n\xff\xfd\x06NOOP\r\nRETR a\xff\xf2\n\xff\xffx\n";
    const LINES: &[u8] = b"ABOR\r\nNOOP\r\nRETR a\xff\xf2\n\xffx\n";

    #[test]
    fn commands_are_taken_away() {
        for size in 1..=INPUT.len() {
            let (mut telnet, mut bytes) = (Telnet::default(), BytesMut::new());
            for piece in INPUT.chunks(size) {
                let from = bytes.len();
                bytes.extend_from_slice(piece);
                telnet.strip(&mut bytes, from);
            }
            assert_eq!(bytes, LINES, "in pieces of {size}");
        }
    }
}
