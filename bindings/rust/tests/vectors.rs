//! The vector files through the crate.
mod common;

use common::shown::{quoted, shown_exchange, shown_read, written_address};
use common::{
    bytes, calls, limit, pieces, shown_decoded, shown_event, shown_reply, sizes, without_lefts,
};
use unftp_control::{
    canonical, forward, is_clear, list_path, log_exchange, parameter, quoted_path, reply, Error,
    Pending, Refusal, Reply, ReplyCode, ReplyDecoder,
};

/// The events of all lines that are pending.
fn take_events(pending: &mut Pending, parts: &mut Vec<String>) {
    while let Some(event) = pending.next_event().expect("memory is there") {
        parts.push(shown_decoded(&event));
    }
}

/// What a decoder answers to pieces of an input.
fn decoded(limit: usize, pieces: &[&[u8]]) -> String {
    let mut pending = Pending::with_limit(limit);
    let mut parts = Vec::new();
    for piece in pieces {
        pending.push(piece).expect("memory is there");
        take_events(&mut pending, &mut parts);
        let skipping = if pending.is_skipping() { " skipping" } else { "" };
        parts.push(format!("left={}{skipping}", pending.bytes().len()));
    }
    parts.join(" | ")
}

#[test]
fn each_line_is_what_the_vectors_say() {
    let mut lines = 0;
    for file in ["parse.tsv", "client_lines.tsv", "worked.tsv"] {
        for (words, answer) in calls(file, &["parse"]) {
            let line = bytes(&words[0]);
            if !common::cases::is_one_line(&line) {
                continue;
            }
            let mut pending = Pending::with_limit(0);
            pending.push(&line).expect("memory is there");
            let event = pending.next_event().expect("memory is there").map(|it| shown_event(&it));
            assert_eq!(event, Some(answer), "{words:?}");
            assert_eq!(pending.line(), line);
            lines += 1;
        }
    }
    assert!(lines > 2000, "{lines} lines");
}

/// The verbs whose line is forwarded as the canonical one: those without a value, and those whose
/// value has a type of its own.
// canonical: made by tools/gate/verbs of FtpCommand.antt
const CANONICAL: [&str; 18] = [
    "STRU", "MODE", "NOOP", "PASV", "FEAT", "PWD", "XPWD", "CDUP", "OPTS", "QUIT", "BYE", "ABOR",
    "STOU", "AUTH", "CCC", "PBSZ", "PROT", "REST",
];
// end of canonical

#[test]
fn each_other_line_is_forwarded_with_its_parameter() {
    let mut lines = 0;
    for file in ["parse.tsv", "client_lines.tsv", "worked.tsv"] {
        for (words, _) in calls(file, &["parse"]) {
            let line = bytes(&words[0]);
            let Ok(forwarded) = forward(&line) else { continue };
            let verb_ends = |byte: &u8| b" \r\n".contains(byte);
            let verb = line.split(verb_ends).next().expect("a verb").to_ascii_uppercase();
            let wanted = if CANONICAL.iter().any(|it| it.as_bytes() == verb) {
                canonical(&line).expect("it is a command")
            } else {
                let text = line.strip_suffix(b"\n").expect("it is one line");
                let text = text.strip_suffix(b"\r").unwrap_or(text);
                let sent = text.get(verb.len() + 1..).unwrap_or_default();
                let space: &[u8] = if sent.is_empty() { b"" } else { b" " };
                [&verb, space, sent, b"\r\n"].concat()
            };
            assert_eq!(forwarded.bytes, wanted, "{words:?}");
            assert_eq!(forwarded.is_clear, is_clear(&wanted), "{words:?}");
            lines += 1;
        }
    }
    assert!(lines > 1000, "{lines} lines");
}

#[test]
fn each_line_has_the_parameter_that_the_vectors_say() {
    let shown = |value: Result<Vec<u8>, Error>| match value {
        Ok(value) => quoted(&value),
        Err(Error::Refused(Refusal::InvalidEol)) => "none".to_string(),
        Err(error) => panic!("{error}"),
    };
    for (call, of) in [("parameter", parameter as fn(&[u8]) -> _), ("list_path", list_path)] {
        let rows = calls("worked.tsv", &[call]);
        assert!(rows.len() >= 10, "{} rows", rows.len());
        for (words, answer) in rows {
            assert_eq!(shown(of(&bytes(&words[0]))), answer, "{call} {words:?}");
        }
    }
}

#[test]
fn each_input_gives_its_events_in_any_pieces() {
    for file in ["decode.tsv", "client_streams.tsv", "worked.tsv"] {
        for (at, (words, answer)) in calls(file, &["decode"]).into_iter().enumerate() {
            let limit = limit(&words[0]);
            let inputs: Vec<Vec<u8>> = words[1..].iter().map(|word| bytes(word)).collect();
            let given: Vec<&[u8]> = inputs.iter().map(Vec::as_slice).collect();
            assert_eq!(decoded(limit, &given), answer, "{words:?}");
            let input = inputs.concat();
            for size in sizes(&input) {
                if !input.is_empty() {
                    let in_pieces = decoded(limit, &pieces(&input, size, at as u64));
                    assert_eq!(
                        without_lefts(&in_pieces),
                        without_lefts(&answer),
                        "{words:?} by {size}"
                    );
                }
            }
        }
    }
}

/// Makes the steps of a row: a piece, `push` and a piece, `next`, or `clear`.
fn steps(words: &[String], mut step: impl FnMut(&str, &[u8])) {
    let mut words = words.iter();
    while let Some(word) = words.next() {
        match word.as_str() {
            "next" | "clear" => step(word, b""),
            "push" => step(word, &bytes(words.next().expect("a piece follows push"))),
            piece => step("all", &bytes(piece)),
        }
    }
}

/// How many events or replies a step takes at most.
fn most(step: &str) -> usize {
    match step {
        "all" => usize::MAX,
        "next" => 1,
        _ => 0,
    }
}

#[test]
fn events_come_step_by_step() {
    for (words, answer) in calls("worked.tsv", &["events", "event_lines"]) {
        let has_lines = answer.contains(" of ");
        let mut pending = Pending::with_limit(limit(&words[0]));
        let mut parts = Vec::new();
        steps(&words[1..], |step, piece| {
            match step {
                "clear" => pending.clear(),
                _ => pending.push(piece).expect("memory is there"),
            }
            for _ in 0..most(step) {
                let event = pending.next_event().expect("memory is there");
                let Some(part) = event.map(|event| shown_decoded(&event)) else { break };
                let line = common::shown::quoted(pending.line());
                parts.push(if has_lines { format!("{part} of {line}") } else { part });
            }
            parts.push(format!("left={}", pending.bytes().len()));
        });
        assert_eq!(parts.join(" | "), kept(&answer), "{words:?}");
    }
}

/// An answer with how many bytes are kept, where these are less than were left.
fn kept(answer: &str) -> String {
    let kept = |part: &str| match part.split_once(" pending=") {
        Some((_, pending)) => format!("left={pending}"),
        None => part.to_string(),
    };
    answer.split(" | ").map(kept).collect::<Vec<String>>().join(" | ")
}

#[test]
fn replies_come_step_by_step() {
    for (words, answer) in calls("worked.tsv", &["receive"]) {
        let mut decoder = ReplyDecoder::with_limit(limit(&words[0]));
        let mut parts = Vec::new();
        steps(&words[1..], |step, piece| {
            match step {
                "clear" => decoder.clear(),
                _ => decoder.push(piece).expect("memory is there"),
            }
            for _ in 0..most(step) {
                match decoder.next_reply() {
                    Ok(Some(reply)) => parts.push(shown_reply(&reply)),
                    Ok(None) => break,
                    Err(error) => {
                        parts.push(error_word(error).to_string());
                        break;
                    }
                }
            }
            parts.push(format!("left={}", decoder.bytes().len()));
        });
        assert_eq!(parts.join(" | "), answer, "{words:?}");
    }
}

fn error_word(error: Error) -> &'static str {
    match error {
        Error::MalformedReply => "malformed",
        Error::ReplyTooLong => "too-long",
        error => panic!("a decoder of replies fails with {error}"),
    }
}

#[test]
fn each_stream_of_a_server_has_its_replies_in_any_pieces() {
    let mut replies = 0;
    for file in ["server_replies.tsv", "worked.tsv"] {
        for (at, (words, answer)) in calls(file, &["read"]).into_iter().enumerate() {
            let stream = bytes(&words[0]);
            for size in sizes(&stream) {
                assert_eq!(read(&pieces(&stream, size, at as u64)), answer, "{words:?} by {size}");
            }
            replies += answer.split(';').count();
        }
    }
    assert!(replies > 9000, "{replies} replies");
}

/// The replies in these pieces, and what is left.
fn read(pieces: &[&[u8]]) -> String {
    let mut decoder = ReplyDecoder::with_limit(0);
    let (mut replies, mut is_malformed) = (Vec::new(), false);
    for piece in pieces {
        decoder.push(piece).expect("memory is there");
        loop {
            match decoder.next_reply() {
                Ok(Some(reply)) => replies.push(shown_reply(&reply)),
                Ok(None) => break,
                Err(error) => {
                    assert_eq!(error, Error::MalformedReply);
                    is_malformed = true;
                    break;
                }
            }
        }
    }
    let malformed = if is_malformed { " malformed" } else { "" };
    format!("{} rest={}{malformed}", replies.join(";"), decoder.bytes().len())
}

#[test]
fn each_reply_has_its_bytes() {
    let mut replies = 0;
    for file in ["encode.tsv", "worked.tsv"] {
        for (words, answer) in calls(file, &["encode"]) {
            let words: Vec<&str> = words.iter().map(String::as_str).collect();
            let Some(reply) = common::cases::read_reply(&words) else { continue };
            assert_eq!(reply.to_bytes(), Ok(bytes(&answer)), "{words:?}");
            replies += 1;
        }
    }
    assert!(replies > 60, "{replies} replies");
}

#[test]
fn each_code_from_100_to_599_has_its_reply() {
    for (words, answer) in calls("worked.tsv", &["lines"]) {
        let code: u32 = words[0].parse().expect("a code is a number");
        let code = u16::try_from(code).ok().and_then(ReplyCode::new);
        let lines: Vec<Vec<u8>> = words[1..].iter().map(|word| bytes(word)).collect();
        match code {
            None => assert_eq!(answer, "CodeOutOfRange"),
            // one empty line is sent without the space, and a line feed divides two lines
            Some(_) if lines.concat().is_empty() || lines.concat().contains(&b'\n') => {}
            Some(code) => assert_eq!(reply(code, &lines), Ok(bytes(&answer)), "{words:?}"),
        }
    }
}

#[test]
fn each_path_is_quoted() {
    for (words, answer) in calls("worked.tsv", &["quoted_path"]) {
        assert_eq!(quoted_path(&bytes(&words[0])), Ok(bytes(&answer)), "{words:?}");
    }
}

#[test]
fn a_received_reply_has_the_lines_of_the_reply() {
    for (words, _) in calls("encode.tsv", &["encode"]) {
        let words: Vec<&str> = words.iter().map(String::as_str).collect();
        let Some(reply) = common::cases::read_reply(&words) else { continue };
        let mut decoder = ReplyDecoder::new();
        decoder.push(&reply.to_bytes().expect("memory is there")).expect("memory is there");
        let received = decoder.next_reply().expect("it is a reply").expect("it is complete");
        assert_eq!(received.code(), reply.code().get());
        assert!(received.lines().eq(padded(&reply).iter().map(Vec::as_slice)), "{reply:?}");
    }
}

/// What a program passes on of a reply is read as that reply.
#[test]
fn each_received_reply_is_read_back() {
    let (mut replies, mut not_utf8) = (0, 0);
    for file in ["server_replies.tsv", "worked.tsv"] {
        for (words, _) in calls(file, &["read"]) {
            let mut decoder = ReplyDecoder::with_limit(0);
            decoder.push(&bytes(&words[0])).expect("memory is there");
            while let Ok(Some(reply)) = decoder.next_reply() {
                let mut again = ReplyDecoder::with_limit(0);
                again.push(reply.bytes()).expect("memory is there");
                let read = again.next_reply().expect("it is a reply").expect("it is complete");
                assert_eq!(read.code(), reply.code(), "{words:?}");
                assert!(read.lines().eq(reply.lines()), "{words:?}");
                assert_eq!(read.bytes().len(), reply.bytes().len(), "{words:?}");
                replies += 1;
                not_utf8 += usize::from(std::str::from_utf8(reply.bytes()).is_err());
            }
        }
    }
    assert!(replies > 9000, "{replies} replies");
    assert!(not_utf8 > 0, "{not_utf8} replies that are not UTF-8");
}

/// The lines with the space that is put before a digit, but in the last one.
fn padded(reply: &Reply) -> Vec<Vec<u8>> {
    let mut lines: Vec<Vec<u8>> = reply.lines().map(<[u8]>::to_vec).collect();
    let before_last = lines.len() - 1;
    for line in &mut lines[..before_last] {
        if line.first().is_some_and(u8::is_ascii_digit) {
            line.insert(0, b' ');
        }
    }
    lines
}

#[test]
fn each_line_is_forwarded_or_not() {
    for (words, answer) in calls("worked.tsv", &["forward"]) {
        let forwarded = match forward(&bytes(&words[0])) {
            Ok(line) => common::shown::quoted(&line.bytes),
            Err(Error::NotALine) => "NotALine".to_string(),
            Err(Error::Refused(refusal)) => {
                format!("err {}", common::shown::shown_refusal(refusal))
            }
            Err(error) => panic!("{error}"),
        };
        assert_eq!(forwarded, answer, "{words:?}");
    }
}

#[test]
fn each_canonical_line_means_the_same() {
    for (words, answer) in calls("client_lines.tsv", &["parse"]) {
        match canonical(&bytes(&words[0])) {
            Ok(line) => {
                let mut pending = Pending::with_limit(0);
                pending.push(&line).expect("memory is there");
                let event = pending.next_event().expect("memory is there").expect("it is a line");
                assert_eq!(shown_event(&event), answer, "{words:?}");
            }
            Err(Error::Refused(refusal)) => {
                assert_eq!(format!("err {}", common::shown::shown_refusal(refusal)), answer);
            }
            Err(error) => panic!("{words:?}: {error}"),
        }
    }
}

#[test]
fn each_exchange_has_its_line() {
    let mut lines = 0;
    for (words, answer) in calls("exchanges.tsv", &["exchange"]) {
        if words[0] != "any" {
            continue;
        }
        let line = String::from_utf8(bytes(&words[1])).expect("it is a text");
        let logged = log_exchange(Some(&line), &bytes(&words[2]));
        assert_eq!(shown_exchange(logged), Ok(answer), "{words:?}");
        lines += 1;
    }
    assert!(lines > 30, "{lines} lines");
}

#[test]
fn each_address_is_read_or_not() {
    for (words, answer) in calls("addresses.tsv", &["read_address"]) {
        assert_eq!(shown_read(&words[0], &bytes(&words[1])), Some(answer), "{words:?}");
    }
}

#[test]
fn each_address_is_written() {
    for (words, answer) in calls("addresses.tsv", &["write_address"]) {
        let port = words[2].parse().expect("a port is a number");
        let text = written_address(&words[0], &words[1], port).expect("a host of this form");
        assert_eq!(text.map(|text| quoted(text.as_bytes())), Ok(answer), "{words:?}");
    }
}

#[test]
fn each_address_is_read_back() {
    let mut texts = 0;
    for (words, answer) in calls("addresses.tsv", &["read_address"]) {
        let fields = answer.strip_prefix("ip=").and_then(|fields| fields.split_once(" port="));
        let Some((host, port)) = fields else { continue };
        for form in ["PORT", "EPRT", "227", "229"] {
            let port = port.parse().expect("a port is a number");
            let Some(text) = written_address(form, host, port) else { continue };
            let text = text.expect("memory is there");
            let wanted = if form == "229" { format!("port={port}") } else { answer.clone() };
            assert_eq!(shown_read(form, text.as_bytes()), Some(wanted), "{words:?}");
            texts += 1;
        }
    }
    assert!(texts > 200, "{texts} texts");
}
