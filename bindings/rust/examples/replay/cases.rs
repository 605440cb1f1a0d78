//! Cases as the vector files write them.
use unftp_control::{Reply, ReplyCode};

/// Whether the bytes are a line whose one line feed is its last byte.
pub fn is_one_line(bytes: &[u8]) -> bool {
    bytes.iter().position(|&byte| byte == b'\n').map(|at| at + 1) == Some(bytes.len())
}

/// The bytes that a word has between quotes.
pub fn read_bytes(word: &str) -> Option<Vec<u8>> {
    let mut rest = word.strip_prefix('"')?.strip_suffix('"')?.bytes();
    let mut bytes = Vec::new();
    while let Some(byte) = rest.next() {
        bytes.push(match byte {
            b'\\' => unescaped(&mut rest)?,
            byte => byte,
        });
    }
    Some(bytes)
}

/// The byte that is escaped by what follows a backslash.
fn unescaped(rest: &mut impl Iterator<Item = u8>) -> Option<u8> {
    Some(match rest.next()? {
        b'r' => b'\r',
        b'n' => b'\n',
        b'0' => b'\0',
        b'\\' => b'\\',
        b'x' => digit(rest.next()?)? << 4 | digit(rest.next()?)?,
        _ => return None,
    })
}

fn digit(letter: u8) -> Option<u8> {
    match letter {
        b'0'..=b'9' => Some(letter - b'0'),
        b'a'..=b'f' => Some(letter - b'a' + 10),
        _ => None,
    }
}

/// The text that a word has between quotes.
fn read_text(word: &str) -> Option<String> {
    String::from_utf8(read_bytes(word)?).ok()
}

/// A reply that this library makes: its code is from 100 to 599, and its text is one line, or
/// several.
pub fn read_reply(words: &[&str]) -> Option<Reply> {
    let [kind, code, texts @ ..] = words else {
        return None;
    };
    let code = ReplyCode::new(code.parse().ok()?)?;
    let texts: Option<Vec<String>> = texts.iter().map(|word| read_text(word)).collect();
    let texts = texts.filter(|texts| texts.iter().all(|text| !text.contains('\n')))?;
    let is_taken = match *kind {
        "msg" => texts.len() == 1,
        "multi" => texts.len() > 1,
        _ => false,
    };
    is_taken.then(|| Reply::with_lines(code, texts))
}
