//! What a recorder writes of lines and replies.
use serde_json::{json, to_value};
use unftp_control::{Command, Error, Event, Pending, ReplyDecoder};

#[test]
fn events() -> Result<(), Error> {
    let mut pending = Pending::new();
    for (line, expected) in [
        (&b"PASS secret\r\n"[..], json!({"command": "PASS ***"})),
        (b"PSAS secret\r\n", json!({"command": "***"})),
        (b"retr a\xc3\xa9\r\n", json!({"command": "RETR a\\xc3\\xa9"})),
        (b"NOOP secret\r\n", json!({"refused": "invalid command"})),
    ] {
        pending.push(line)?;
        let event = pending.next_event()?.expect("a line");
        assert_eq!(to_value(&event).expect("JSON"), expected);
    }
    Ok(())
}

#[test]
fn replies() -> Result<(), Error> {
    let mut decoder = ReplyDecoder::new();
    decoder.push(b"211-Features:\r\n UTF8\r\n \xff\r\n211 End\r\n")?;
    let reply = decoder.next_reply()?.expect("a reply");
    let lines = ["Features:", " UTF8", " \u{fffd}", "End"];
    assert_eq!(to_value(&reply).expect("JSON"), json!({"code": 211, "lines": lines}));
    Ok(())
}

#[test]
fn a_command_that_no_line_gives() {
    let retr = Event::Command(Command::Retr { path: "a\nDELE b".into() });
    assert_eq!(to_value(&retr).expect("JSON"), json!({"command": "RETR"}));
}
