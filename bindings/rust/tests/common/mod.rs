//! The vector files, and what they write of events and replies.
#![allow(dead_code)]

#[path = "../../examples/replay/cases.rs"]
pub mod cases;
#[path = "../../examples/replay/shown.rs"]
pub mod shown;

use cases::read_bytes;
use shown::{quoted, shown, shown_refusal, shown_refusals};
use unftp_control::{Event, ReceivedReply};

/// The columns of each row of a vector file. Those of worked.tsv begin with the call.
pub fn rows(file: &str) -> Vec<Vec<String>> {
    let path = format!("{}/../../vectors/{file}", env!("CARGO_MANIFEST_DIR"));
    let text = std::fs::read_to_string(&path).unwrap_or_else(|error| panic!("{path}: {error}"));
    let rows = text.lines().filter(|row| !row.starts_with('#'));
    let skipped = if file == "worked.tsv" { 2 } else { 0 };
    rows.map(|row| row.split('\t').skip(skipped).map(str::to_string).collect()).collect()
}

/// The rows of these calls: what each is given, and the answer.
pub fn calls(file: &str, calls: &[&str]) -> Vec<(Vec<String>, String)> {
    let mut rows = rows(file);
    rows.retain(|row| calls.contains(&row[0].as_str()));
    assert!(!rows.is_empty(), "{file} has {calls:?}");
    let pair = |mut row: Vec<String>| {
        let answer = row.pop().expect("a row has an answer");
        (row.split_off(1), answer)
    };
    rows.into_iter().map(pair).collect()
}

/// The bytes between the quotes of a column.
pub fn bytes(word: &str) -> Vec<u8> {
    read_bytes(word).unwrap_or_else(|| panic!("{word} has quotes"))
}

/// A limit, of which 0 is none.
pub fn limit(word: &str) -> usize {
    if word == "none" {
        0
    } else {
        word.parse().expect("a limit is a number")
    }
}

/// An event as `parse` answers it.
pub fn shown_event(event: &Event) -> String {
    match event {
        Event::Command(command) => format!("ok {}", shown(command)),
        Event::Refused(refusal) => format!("err {}", shown_refusal(*refusal)),
    }
}

/// An event as `decode` answers it.
pub fn shown_decoded(event: &Event) -> String {
    match event {
        Event::Command(command) => format!("ok {}", shown(command)),
        Event::Refused(refusal) => format!("err {}", shown_refusals(*refusal)),
    }
}

/// A reply as `read` answers it.
pub fn shown_reply(reply: &ReceivedReply) -> String {
    let lines: Vec<String> = reply.lines().map(quoted).collect();
    format!("{:03}:{}", reply.code(), lines.join(","))
}

/// Pieces of an input: of this size, or of sizes that the seed picks where it is 0.
pub fn pieces(input: &[u8], size: usize, seed: u64) -> Vec<&[u8]> {
    let (mut rest, mut state, mut pieces) = (input, seed | 1, Vec::new());
    while !rest.is_empty() {
        state = state.wrapping_mul(6364136223846793005).wrapping_add(1442695040888963407);
        let len = if size == 0 { 1 + (state >> 33) as usize % 40 } else { size };
        let (piece, after) = rest.split_at(len.min(rest.len()));
        pieces.push(piece);
        rest = after;
    }
    pieces
}

/// The sizes of pieces that are tried, of which 0 stands for random ones: of a short input all.
pub fn sizes(input: &[u8]) -> Vec<usize> {
    match input.len() {
        0..=80 => (0..=input.len()).collect(),
        len => vec![0, 1, 3, 7, 1000, len],
    }
}

/// An answer without what is left after each piece but the last.
pub fn without_lefts(answer: &str) -> String {
    let parts: Vec<&str> = answer.split(" | ").collect();
    let (left, parts) = parts.split_last().expect("there is what is left");
    let events = parts.iter().filter(|part| !part.starts_with("left="));
    events.chain([left]).copied().collect::<Vec<&str>>().join(" | ")
}
