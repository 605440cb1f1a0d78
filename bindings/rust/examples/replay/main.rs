//! Answers the cases of a vector file (`vectors/README.md`): reads one a line from standard input,
//! and writes its answer. It has the calls `parse`, `decode`, `encode`, `read`, `canonical`,
//! `forward`, `log`, `exchange`, `read_address` and `write_address`. A case that its call doesn't take is
//! answered by `skipped`, and what is no case by `bad-case`.

mod cases;
mod shown;

use cases::{is_one_line, read_bytes, read_reply};
use shown::{
    quoted, shown, shown_exchange, shown_read, shown_refusal, shown_refusals, written_address,
};
use std::io::{self, BufRead, Write};
use std::process::ExitCode;
use unftp_control::{
    canonical, forward, front_reply, log_exchange, Error, Event, FrontReply, Pending,
};

/// What a call answers to a case: `None` where it doesn't take the case.
type Answer = Result<Option<String>, Error>;

/// The answer to a case; `None` where it is no case.
fn answer(case: &str) -> Option<Answer> {
    let words: Vec<&str> = case.split('\t').collect();
    Some(match words[..] {
        ["parse", line] => answer_parse(&read_bytes(line)?),
        ["decode", "none", input] => answer_decode(&read_bytes(input)?),
        ["encode", ..] => answer_encode(&words[1..]),
        ["read", stream] => answer_read(&read_bytes(stream)?),
        ["canonical", line] => answer_written(canonical(&read_bytes(line)?)),
        ["forward", line] => answer_written(forward(&read_bytes(line)?).map(|sent| sent.bytes)),
        ["log", limit, line] => answer_log(limit, &read_bytes(line)?),
        ["exchange", "any", line, replies] => {
            answer_exchange(&read_bytes(line)?, &read_bytes(replies)?)
        }
        ["exchange", ..] => Ok(None),
        ["read_address", form, text] => Ok(shown_read(form, &read_bytes(text)?)),
        ["write_address", form, host, port] => {
            let written = written_address(form, host, port.parse().ok()?)?;
            written.map(|text| Some(quoted(text.as_bytes())))
        }
        _ => return None,
    })
}

/// What a line is.
fn answer_parse(line: &[u8]) -> Answer {
    if !is_one_line(line) {
        return Ok(None);
    }
    let mut pending = Pending::with_limit(0);
    pending.push(line)?;
    Ok(pending.next_event()?.map(|event| match event {
        Event::Command(command) => format!("ok {}", shown(&command)),
        Event::Refused(refusal) => format!("err {}", shown_refusal(refusal)),
    }))
}

/// What each line of an input is, and how many bytes are left.
fn answer_decode(input: &[u8]) -> Answer {
    let mut pending = Pending::with_limit(0);
    pending.push(input)?;
    let mut answer = String::new();
    while let Some(event) = pending.next_event()? {
        answer += &match event {
            Event::Command(command) => format!("ok {} | ", shown(&command)),
            Event::Refused(refusal) => format!("err {} | ", shown_refusals(refusal)),
        };
    }
    answer += &format!("left={}", pending.bytes().len());
    Ok(Some(answer))
}

/// The bytes of a reply.
fn answer_encode(words: &[&str]) -> Answer {
    match read_reply(words) {
        Some(reply) => Ok(Some(quoted(&reply.to_bytes()?))),
        None => Ok(None),
    }
}

/// The code and the length of each reply of what a server sent, and how much is left.
fn answer_read(stream: &[u8]) -> Answer {
    let mut rest = stream;
    let mut replies = Vec::new();
    let end = loop {
        match front_reply(rest) {
            FrontReply::Whole { code, used } => {
                replies.push(format!("{code:03}:{used}"));
                rest = &rest[used..];
            }
            FrontReply::Partial => break "",
            FrontReply::Malformed => break " malformed",
        }
    };
    Ok(Some(format!("{} rest={}{end}", replies.join(";"), rest.len())))
}

/// What a log shows of a line, under a limit or none.
fn answer_log(limit: &str, line: &[u8]) -> Answer {
    let mut pending = Pending::with_limit(limit.parse().unwrap_or(0));
    pending.push(line)?;
    match pending.next_line()? {
        Some(line) => Ok(Some(quoted(line.log_line()?.text.as_bytes()))),
        None => Ok(None),
    }
}

/// The line of a log for an exchange, where what is shown of its line is a text.
fn answer_exchange(line: &[u8], replies: &[u8]) -> Answer {
    let Ok(line) = std::str::from_utf8(line) else {
        return Ok(None);
    };
    shown_exchange(log_exchange(Some(line), replies)).map(Some)
}

/// The canonical line of a line, or the one that is forwarded for it.
fn answer_written(line: Result<Vec<u8>, Error>) -> Answer {
    Ok(Some(match line {
        Ok(written) => quoted(&written),
        Err(Error::Refused(refusal)) => format!("err {}", shown_refusal(refusal)),
        Err(Error::NoLine) => "NoLine".to_string(),
        Err(Error::NotALine) => "NotALine".to_string(),
        Err(error) => return Err(error),
    }))
}

/// Answers each line of standard input.
fn replay() -> Result<(), Box<dyn std::error::Error>> {
    let mut out = io::BufWriter::new(io::stdout().lock());
    for case in io::stdin().lock().lines() {
        match answer(&case?) {
            Some(answer) => writeln!(out, "{}", answer?.as_deref().unwrap_or("skipped"))?,
            None => writeln!(out, "bad-case")?,
        }
    }
    out.flush()?;
    Ok(())
}

fn main() -> ExitCode {
    match replay() {
        Ok(()) => ExitCode::SUCCESS,
        Err(error) => {
            eprintln!("replay: {error}");
            ExitCode::FAILURE
        }
    }
}
