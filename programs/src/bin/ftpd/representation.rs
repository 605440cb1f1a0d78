//! How bytes are represented on a data connection, and written to a file.
use crate::transfer::Start;
use crate::upload::Upload;
use std::io::{self, Seek, SeekFrom, Write};
use std::mem;

/// How bytes are represented on a data connection (RFC 959, section 3.1.1).
#[derive(Clone, Copy, Debug, Default, PartialEq, Eq)]
pub enum Representation {
    /// Lines that end with CR LF.
    #[default]
    Ascii,
    /// The bytes as they are.
    Image,
}

impl Representation {
    /// The bytes of a file as they are sent.
    pub fn sent(self, bytes: Vec<u8>) -> Vec<u8> {
        match self {
            Representation::Ascii => with_crlf(&bytes),
            Representation::Image => bytes,
        }
    }
}

/// Each line feed as CR LF.
fn with_crlf(part: &[u8]) -> Vec<u8> {
    let mut lines = Vec::with_capacity(part.len() + part.len() / 16);
    for line in part.split_inclusive(|byte| *byte == b'\n') {
        match line.strip_suffix(b"\n") {
            Some(text) => {
                lines.extend_from_slice(text);
                lines.extend_from_slice(b"\r\n");
            }
            None => lines.extend_from_slice(line),
        }
    }
    lines
}

/// A file that is received.
pub struct Sink {
    upload: Upload,
    representation: Representation,
    /// In ASCII, whether the last byte was a CR, which is not written before the next one.
    has_cr: bool,
}

impl Sink {
    /// One that begins at a place.
    pub fn new(
        mut upload: Upload,
        start: Start,
        representation: Representation,
    ) -> io::Result<Sink> {
        let file = &mut upload.file;
        if let Start::Offset(offset) = start {
            // ext4 writes a file that was truncated to nothing to the disk before it is closed
            if file.metadata()?.len() > offset {
                file.set_len(offset)?;
            }
            file.seek(SeekFrom::Start(offset))?;
        }
        Ok(Sink { upload, representation, has_cr: false })
    }

    /// Writes a part, of which an empty one is the end.
    pub fn write(&mut self, part: &[u8]) -> io::Result<()> {
        match self.representation {
            Representation::Image => self.upload.file.write_all(part)?,
            Representation::Ascii => {
                let text = without_crlf(part, &mut self.has_cr);
                self.upload.file.write_all(&text)?;
            }
        }
        self.upload.wrote(part.len());
        Ok(())
    }

    /// Ends a file that is whole.
    pub fn finish(mut self) -> io::Result<()> {
        self.write(&[])?;
        self.upload.finish()
    }

    /// Ends a file that is cut.
    pub fn cut(self) -> io::Result<()> {
        self.upload.cut()
    }
}

/// Each CR LF as a line feed. A CR at the end is kept for the next part; an empty part is the end.
fn without_crlf(part: &[u8], has_cr: &mut bool) -> Vec<u8> {
    let mut text = Vec::with_capacity(part.len() + 1);
    for byte in part {
        if *has_cr && *byte != b'\n' {
            text.push(b'\r');
        }
        *has_cr = *byte == b'\r';
        if !*has_cr {
            text.push(*byte);
        }
    }
    if part.is_empty() && mem::take(has_cr) {
        text.push(b'\r');
    }
    text
}

#[cfg(test)]
mod tests {
    use super::*;

    #[test]
    fn lines_end_with_crlf() {
        assert_eq!(with_crlf(b"a\n\nb\r\nc"), b"a\r\n\r\nb\r\r\nc");
    }

    #[test]
    fn files_end_lines_with_line_feeds() {
        let input = b"a\r\nb\rc\r\r\n\r\n\rd\r";
        for size in 1..=input.len() {
            let (mut has_cr, mut text) = (false, Vec::new());
            for part in input.chunks(size).chain([&b""[..]]) {
                text.extend(without_crlf(part, &mut has_cr));
            }
            assert_eq!(text, b"a\nb\rc\r\n\n\rd\r", "in parts of {size}");
        }
    }
}
