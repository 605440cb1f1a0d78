//! The calls on inputs whose answers are known.
use unftp_control::{
    canonical, forward, front_reply, library_version, quoted_path, reply, Client, Command, Error,
    Event, FrontReply, Pending, Refusal, Reply, ReplyCode, ReplyDecoder, ReplyValue, To,
    UnknownCode, LINE_LIMIT, REPLY_LIMIT,
};

fn command(command: Command) -> Option<Event> {
    Some(Event::Command(command))
}

#[test]
fn the_library_has_the_version_of_the_crate() {
    let parts = env!("CARGO_PKG_VERSION").split('.').map(|part| part.parse::<u32>().unwrap());
    assert_eq!(library_version(), parts.fold(0, |version, part| version * 1000 + part));
}

#[test]
fn a_line_may_come_in_pieces() -> Result<(), Error> {
    let mut pending = Pending::new();
    for piece in [&b"re"[..], b"tr a", b"", b".txt\r"] {
        pending.push(piece)?;
        assert_eq!(pending.next_event()?, None);
    }
    pending.push(b"\nNOOP x\n")?;
    assert_eq!(pending.next_event()?, command(Command::Retr { path: "a.txt".into() }));
    let refused = Event::Refused(Refusal::InvalidCommand);
    assert_eq!(pending.next_event()?, Some(refused));
    assert_eq!(pending.next_event()?, None);
    assert_eq!(pending.bytes(), b"");
    Ok(())
}

#[test]
fn names_and_values_may_have_any_length() -> Result<(), Error> {
    let mut pending = Pending::with_limit(0);
    for len in [1, 5000, 9000] {
        let line = [b"x".repeat(len), b" ".to_vec(), vec![0xff; len], b"\r\n".to_vec()].concat();
        pending.push(&line)?;
        let (command_name, arguments) = ("X".repeat(len).into(), "\u{fffd}".repeat(len).into());
        assert_eq!(pending.next_event()?, command(Command::Other { command_name, arguments }));
    }
    Ok(())
}

#[test]
fn a_line_over_the_limit_is_refused() -> Result<(), Error> {
    let mut pending = Pending::with_limit(6);
    pending.push(b"NOOP\r\nNOOP \r\n")?;
    assert_eq!(pending.next_event()?, command(Command::Noop));
    assert_eq!(pending.next_event()?, Some(Event::Refused(Refusal::LineTooLong)));
    for _ in 0..100 {
        pending.push(b"0123456789")?;
        assert_eq!(pending.next_event()?, None);
        assert!(pending.bytes().len() <= 6);
        assert!(pending.is_skipping());
    }
    pending.push(b"\nNOOP\n")?;
    assert_eq!(pending.next_event()?, Some(Event::Refused(Refusal::LineTooLong)));
    assert_eq!(pending.next_event()?, command(Command::Noop));
    assert!(!pending.is_skipping());
    Ok(())
}

/// The events of an input that comes in pieces of this size. Fewer than `limit` bytes stay pending.
fn events_of_pieces(limit: usize, input: &[u8], size: usize) -> Result<Vec<Event<'static>>, Error> {
    let mut pending = Pending::with_limit(limit);
    let mut events = Vec::new();
    for piece in input.chunks(size) {
        pending.push(piece)?;
        while let Some(event) = pending.next_event()? {
            events.push(event.into_owned());
        }
        assert!(limit == 0 || pending.bytes().len() < limit);
    }
    Ok(events)
}

#[test]
fn pieces_of_any_size_give_the_same_events() -> Result<(), Error> {
    let retr = format!("RETR {}\r\n", "a".repeat(5000));
    let lines = ["USER a\r\n", &retr, "NOOP\n\r\n", &retr, &retr, "STOR b\0\r\nPWD \r\n", "QUIT"];
    let input = lines.concat();
    for limit in [0, 1, 6, 7, 16, 17, 5006, 5007, LINE_LIMIT] {
        let whole = events_of_pieces(limit, input.as_bytes(), input.len())?;
        for size in [1, 2, 7, 15, 16, 4096] {
            let events = events_of_pieces(limit, input.as_bytes(), size)?;
            assert_eq!(events, whole, "{limit} by {size}");
        }
    }
    Ok(())
}

#[test]
fn there_is_a_limit_where_none_is_named() -> Result<(), Error> {
    for (len, is_long) in [(LINE_LIMIT, false), (LINE_LIMIT + 1, true)] {
        let mut pending = Pending::default();
        let path = "a".repeat(len - 7);
        pending.push(format!("RETR {path}\r\n").as_bytes())?;
        let refused = Some(Event::Refused(Refusal::LineTooLong));
        let retr = command(Command::Retr { path: path.into() });
        assert_eq!(pending.next_event()?, if is_long { refused } else { retr });
    }
    Ok(())
}

#[test]
fn the_line_has_what_its_command_drops() -> Result<(), Error> {
    let mut pending = Pending::with_limit(10);
    pending.push(b"TYPE A\r\nMODE s\r\nNOOP NOOP NOOP\r\nNO")?;
    let refused = |why| Some(Event::Refused(why));
    let (mode, long) = (refused(Refusal::InvalidCommand), refused(Refusal::LineTooLong));
    let events = [command(Command::Type), mode, long, None];
    for (event, bytes) in events.into_iter().zip([&b"TYPE A\r\n"[..], b"MODE s\r\n", b"", b""]) {
        let line = pending.next_line()?;
        assert_eq!(line.as_ref().map_or(&b""[..], |line| line.bytes), bytes);
        assert_eq!(line.map(|line| line.event), event);
        assert_eq!(pending.line(), bytes);
    }
    pending.push(b"OP\n")?;
    assert_eq!(pending.line(), b"");
    pending.next_event()?;
    assert_eq!(pending.line(), b"NOOP\n");
    pending.clear();
    assert_eq!(pending.line(), b"");
    Ok(())
}

#[test]
fn nothing_pending_is_read_after_clear() -> Result<(), Error> {
    let mut pending = Pending::with_limit(9);
    for input in [&b"AUTH TLS\nDELE a\r\nQU"[..], b"0123456789", b"NO"] {
        pending.push(input)?;
        pending.next_event()?;
        pending.clear();
        assert_eq!(pending.bytes(), b"");
        assert_eq!(pending.next_event()?, None);
        pending.push(b"NOOP\n")?;
        assert_eq!(pending.next_event()?, command(Command::Noop));
    }
    Ok(())
}

#[test]
fn debug_shows_no_pending_byte() -> Result<(), Error> {
    let mut pending = Pending::new();
    pending.push(b"PASS secret\r\n")?;
    assert_eq!(format!("{pending:?}"), "Pending { len: 13, .. }");
    Ok(())
}

#[test]
fn a_reply_is_found_again() -> Result<(), Error> {
    assert_eq!(reply(ReplyCode::COMMAND_OKAY, [""])?, b"200\r\n");
    let mut bytes = reply(ReplyCode::SYSTEM_STATUS, ["211 x"; 100])?;
    let (code, used) = (211, bytes.len());
    assert_eq!(front_reply(&bytes[..used - 1]), FrontReply::Partial);
    bytes.extend_from_slice(b"2");
    assert_eq!(front_reply(&bytes), FrontReply::Whole { code, used });
    assert_eq!(front_reply(b""), FrontReply::Partial);
    assert_eq!(front_reply(b"OK\r\n"), FrontReply::Malformed);
    Ok(())
}

#[test]
fn a_reply_has_any_code_from_100_to_599() -> Result<(), Error> {
    for number in 0..=u16::MAX {
        let code = ReplyCode::new(number);
        assert_eq!(code.is_some(), (100..=599).contains(&number));
        assert_eq!(ReplyCode::try_from(number), code.ok_or(UnknownCode));
        if let Some(code) = code {
            assert_eq!((code.get(), u16::from(code)), (number, number));
            let bytes = Reply::new(code, "a\nb").to_bytes()?;
            assert_eq!(bytes, format!("{code}-a\r\n{code} b\r\n").as_bytes());
            assert_eq!(code.is_positive(), (200..=399).contains(&number));
        }
    }
    Ok(())
}

#[test]
fn a_reply_of_lines_is_that_of_their_text() {
    let code = ReplyCode::HELP_MESSAGE;
    let none: [&str; 0] = [];
    assert_eq!(Reply::with_lines(code, none), Reply::new(code, ""));
    for text in ["", "a", "a\nb", "\n", "\n\n1\n"] {
        let reply = Reply::new(code, text);
        assert_eq!(Reply::with_lines(code, text.split('\n')), reply);
        assert_eq!(reply.lines().collect::<Vec<_>>().join(&b'\n'), text.as_bytes());
        assert_eq!(reply.code(), code);
    }
}

#[test]
fn a_carriage_return_before_a_line_feed_is_of_the_lines_end() -> Result<(), Error> {
    let code = ReplyCode::HELP_MESSAGE;
    for (text, lines, bytes) in [
        ("a\r\nb", &["a", "b"][..], "214-a\r\n214 b\r\n"),
        ("a\r\n", &["a", ""], "214-a\r\n214 \r\n"),
        ("\r\n\n", &["", "", ""], "214-\r\n\r\n214 \r\n"),
        // any other carriage return stays
        ("a\r\r\n\rb\r", &["a\r", "\rb\r"], "214-a\r\r\n214 \rb\r\r\n"),
        ("a\r", &["a\r"], "214 a\r\r\n"),
        ("\n\r", &["", "\r"], "214-\r\n214 \r\r\n"),
    ] {
        let reply = Reply::new(code, text);
        assert!(reply.lines().eq(lines.iter().map(|line| line.as_bytes())), "{text:?}");
        assert_eq!(reply.to_bytes()?, bytes.as_bytes(), "{text:?}");
        assert_eq!(Reply::with_lines(code, lines), reply, "{text:?}");
        assert_eq!(Reply::with_lines(code, lines).to_bytes()?, bytes.as_bytes(), "{text:?}");
    }
    assert_ne!(Reply::new(code, "a\r\nb"), Reply::new(code, "a\rb"));
    assert_ne!(Reply::new(code, "a\n"), Reply::new(code, "a"));
    assert_ne!(Reply::new(code, "a"), Reply::new(ReplyCode::COMMAND_OKAY, "a"));
    Ok(())
}

#[test]
fn a_reply_has_bytes_that_are_not_utf8() -> Result<(), Error> {
    let code = ReplyCode::FILE_ACTION_OKAY;
    for (text, lines, bytes) in [
        (&b"\xe9"[..], &[&b"\xe9"[..]][..], &b"250 \xe9\r\n"[..]),
        (b"\xff\r\n1\n\xe9", &[b"\xff", b"1", b"\xe9"], b"250-\xff\r\n 1\r\n250 \xe9\r\n"),
        (b"\xc3\n\xa9", &[b"\xc3", b"\xa9"], b"250-\xc3\r\n250 \xa9\r\n"),
    ] {
        let reply = Reply::of_bytes(code, text);
        assert!(reply.lines().eq(lines.iter().copied()), "{reply:?}");
        assert_eq!(reply.to_bytes()?, bytes);
        assert_eq!(Reply::with_lines(code, lines), reply);
        assert_eq!(unftp_control::reply(code, lines)?, bytes);
    }
    assert_eq!(Reply::of_bytes(code, b"a\nb".to_vec()), Reply::new(code, "a\nb"));
    let shown = format!("{:?}", Reply::of_bytes(code, &b"caf\xe9\n\"a\""[..]));
    assert_eq!(shown, r#"Reply { code: 250, lines: ["caf\xe9", "\"a\""] }"#);
    Ok(())
}

#[test]
fn a_path_is_quoted() -> Result<(), Error> {
    assert_eq!(quoted_path(b"")?, b"\"\"");
    assert_eq!(quoted_path(b"/caf\xe9")?, b"\"/caf\xe9\"");
    let quotes = [b'"'; 1000];
    assert_eq!(quoted_path(&quotes)?, [b'"'; 2002]);
    Ok(())
}

// the codes of RFC 959, sections 4.2.2 and 5.4, and of RFC 2228, section 3
#[test]
fn each_event_has_a_usual_reply() -> Result<(), Error> {
    let codes: [(&[u8], u16); 26] = [
        (b"USER anna", 502),
        (b"ACCT a", 202),
        (b"SYST", 215),
        (b"TYPE I", 504),
        (b"STRU F", 200),
        (b"STRU R", 504),
        (b"STRU P", 504),
        (b"MODE S", 200),
        (b"MODE B", 504),
        (b"MODE C", 504),
        (b"HELP", 214),
        (b"NOOP", 200),
        (b"PASV", 502),
        (b"OPTS UTF8 ON", 200),
        (b"opts utf8 off", 504),
        (b"BYE", 221),
        (b"ALLO 5", 202),
        (b"AUTH TLS", 502),
        (b"PBSZ 0", 502),
        (b"PROT P", 502),
        (b"CCC", 502),
        (b"SITE CHMOD 644 a", 502),
        (b"EPRT |1|127.0.0.1|1|", 502),
        (b"RETR", 501),
        (b"\xffNOOP", 500),
        (b"RETR a\rb", 500),
    ];
    for (line, code) in codes {
        let mut pending = Pending::new();
        pending.push(line)?;
        pending.push(b"\r\n")?;
        let event = pending.next_event()?.expect("it is complete");
        assert_eq!(event.usual_reply().code().get(), code, "{event:?}");
    }
    assert_eq!(Refusal::LineTooLong.reply().code(), ReplyCode::COMMAND_SYNTAX_ERROR);
    Ok(())
}

#[test]
fn a_server_without_features_says_so_in_one_line() -> Result<(), Error> {
    let none: [&str; 0] = [];
    // RFC 2389, section 3.2: 211, a space and a text
    assert_eq!(Reply::features(none).to_bytes()?, b"211 No features\r\n");
    Ok(())
}

#[test]
fn a_file_name_makes_no_other_reply() -> Result<(), Error> {
    let reply = Reply::new(ReplyCode::DIR_CREATED, format!("\"{}\"", "a\r\n226 Done\r\nb"));
    let bytes = reply.to_bytes()?;
    let mut decoder = ReplyDecoder::new();
    decoder.push(&bytes)?;
    let received = decoder.next_reply()?.expect("it is complete");
    assert_eq!((received.code(), received.bytes()), (257, &bytes[..]));
    assert_eq!(decoder.next_reply()?, None);
    Ok(())
}

#[test]
fn a_reply_takes_no_more_than_its_bound() -> Result<(), Error> {
    // a digit that begins a line before the last has a space put before it, and a carriage return
    // before a line feed is not written
    for (line, less) in [("", 1), ("a", 1), ("1", 0), ("a\r", 2), ("1\r", 1)] {
        for line_feeds in 1..20 {
            let text = vec![line; line_feeds + 1].join("\n");
            let bound = text.len() + 2 * line_feeds + 10;
            let len = Reply::new(ReplyCode::SYSTEM_STATUS, text).to_bytes()?.len();
            assert_eq!(len, bound - less * line_feeds);
        }
    }
    Ok(())
}

#[test]
fn a_reply_decoder_has_a_limit() -> Result<(), Error> {
    for (len, is_long) in [(REPLY_LIMIT, false), (REPLY_LIMIT + 1, true)] {
        let mut decoder = ReplyDecoder::default();
        decoder.push(format!("220 {}\r\n", "a".repeat(len - 6)).as_bytes())?;
        let found = decoder.next_reply().map(|reply| reply.map(|reply| reply.bytes().len()));
        assert_eq!(found, if is_long { Err(Error::ReplyTooLong) } else { Ok(Some(len)) });
    }
    Ok(())
}

#[test]
fn a_reply_decoder_finds_what_front_reply_does() -> Result<(), Error> {
    let parts = ["211", "212", "-", " ", "a", "\r\n", "\r", "\n"];
    let mut inputs = vec![String::new()];
    for _ in 0..5 {
        let longer = |input: &String| parts.map(|part| format!("{input}{part}"));
        inputs = inputs.iter().flat_map(longer).collect();
    }
    for input in inputs.iter().map(|input| format!("211-{input}211 \r\n")) {
        let mut decoder = ReplyDecoder::with_limit(0);
        for (at, byte) in input.bytes().enumerate() {
            decoder.push(&[byte])?;
            let found = match decoder.next_reply() {
                Ok(Some(reply)) => {
                    FrontReply::Whole { code: reply.code(), used: reply.bytes().len() }
                }
                Ok(None) => FrontReply::Partial,
                Err(_) => FrontReply::Malformed,
            };
            assert_eq!(found, front_reply(&input.as_bytes()[..=at]), "{input:?} to {at}");
            if found != FrontReply::Partial {
                break;
            }
        }
    }
    Ok(())
}

#[test]
fn a_received_reply_shows_its_lines() -> Result<(), Error> {
    let mut decoder = ReplyDecoder::new();
    decoder.push(b"211-a\xff\r\n 1\r\n211 c\r\n")?;
    let reply = decoder.next_reply()?.expect("it is complete");
    let shown = r#"ReceivedReply { code: 211, lines: ["a\xff", " 1", "c"] }"#;
    assert_eq!(format!("{reply:?}"), shown);
    assert_eq!(reply.clone().into_owned(), reply);
    decoder.push(b"257 \"/it's\" \\\t\r\n")?;
    let reply = decoder.next_reply()?.expect("it is complete");
    let shown = r#"ReceivedReply { code: 257, lines: ["\"/it's\" \\\t"] }"#;
    assert_eq!(format!("{reply:?}"), shown);
    Ok(())
}

#[test]
fn debug_of_a_line_shows_its_event() -> Result<(), Error> {
    let shown = |line: &str| -> Result<String, Error> {
        let mut pending = Pending::new();
        pending.push(line.as_bytes())?;
        Ok(format!("{:?}", pending.next_line()?.expect("a line")))
    };
    assert_eq!(shown("NOOP\r\n")?, "Line { event: Command(Noop), .. }");
    assert_eq!(shown("PASS a\r\n")?, shown("PASS secret\r\n")?);
    assert_eq!(shown("PASS a\rb\r\n")?, shown("PASS secret\r!\r\n")?);
    Ok(())
}

#[test]
fn a_line_has_the_value_of_its_parameter() -> Result<(), Error> {
    let no_value = Err(Error::Refused(Refusal::InvalidEol));
    for (line, value, path) in [
        (&b"TYPE A\r\n"[..], Ok(&b"A"[..]), Ok(&b"A"[..])),
        (b"TYPE  A \n", Ok(b" A "), Ok(b" A ")),
        (b"LIST -la x\r\n", Ok(b"-la x"), Ok(b"x")),
        (b"LIST -\r\0 -- a\r\0b\r\n", Ok(b"-\r -- a\rb"), Ok(b"a\rb")),
        (b"NLST\r\n", Ok(b""), Ok(b"")),
        (b"\n", Ok(b""), Ok(b"")),
        (b"SITE CHMOD 644 a\xff\r\n", Ok(b"CHMOD 644 a\xff"), Ok(b"CHMOD 644 a\xff")),
        (b"TYPE A\rb\r\n", no_value, no_value),
        // longer than the limit
        (b"RETR 0123456789012345678901234567890\r\n", Ok(b""), Ok(b"")),
    ] {
        let mut pending = Pending::with_limit(30);
        pending.push(line)?;
        let taken = pending.next_line()?.expect("a line");
        assert_eq!(taken.parameter(), value.map(<[u8]>::to_vec), "{line:?}");
        assert_eq!(taken.list_path(), path.map(<[u8]>::to_vec), "{line:?}");
    }
    Ok(())
}

#[test]
fn a_canonical_line_says_the_same() -> Result<(), Error> {
    assert_eq!(canonical(b"xcwd a b\n")?, b"CWD a b\r\n");
    assert_eq!(canonical(b"USER a\n\n"), Err(Error::NoLine));
    assert_eq!(canonical(b"USER a\r\0\n"), Err(Error::Refused(Refusal::InvalidEol)));
    Ok(())
}

#[test]
fn a_forwarded_line_keeps_what_its_command_drops() -> Result<(), Error> {
    assert_eq!(forward(b"type a\n")?.bytes, b"TYPE a\r\n");
    assert_eq!(forward(b"LIST -la x\r\n")?.bytes, b"LIST -la x\r\n");
    assert_eq!(forward(b"RETR a\xe9\r\n")?.bytes, b"RETR a\xe9\r\n");
    assert_eq!(forward(b"xcwd a\n")?.bytes, b"XCWD a\r\n");
    assert_eq!(forward(b"noop \n")?.bytes, b"NOOP\r\n");
    assert_eq!(forward(b"TYPE A"), Err(Error::NotALine));
    assert_eq!(forward(b"NOOP x\r\n"), Err(Error::Refused(Refusal::InvalidCommand)));
    Ok(())
}

#[test]
fn texts_of_100_kb_go_through_each_call() -> Result<(), Error> {
    let path = "a".repeat(100_000);
    let line = format!("RETR {path}\r\n");
    let mut pending = Pending::with_limit(0);
    pending.push(line.as_bytes())?;
    let retr = Command::Retr { path: path.as_str().into() };
    assert_eq!(pending.next_event()?, command(retr));
    assert_eq!(canonical(line.as_bytes())?, line.as_bytes());
    let listing = format!("LIST -a {path}\r\n");
    assert_eq!(forward(listing.as_bytes())?.bytes, listing.as_bytes());
    let bytes = reply(ReplyCode::FILE_ACTION_OKAY, [&path])?;
    assert_eq!(bytes, format!("250 {path}\r\n").as_bytes());
    let (code, used) = (250, bytes.len());
    assert_eq!(front_reply(&bytes), FrontReply::Whole { code, used });
    Ok(())
}

#[test]
fn a_line_that_is_not_sent_gives_its_value_back() -> Result<(), Error> {
    let (mut client, mut output) = (Client::with_values(), Vec::new());
    client.send_line_with(b"TYPE A\r\n", "sent".to_string(), &mut output)?;
    let no_line = Command::Retr { path: "a\nDELE b".into() };
    for (unsent, error) in [
        (client.send_line_with(b"RETR a", "kept".to_string(), &mut output), Error::NotALine),
        (client.send_with(&no_line, "kept".to_string(), &mut output), Error::NoLine),
    ] {
        let unsent = unsent.expect_err("it is not one line");
        assert_eq!(unsent.to_string(), error.to_string());
        assert!(!format!("{unsent:?}").contains("kept"));
        assert_eq!((unsent.error, unsent.value.as_str()), (error, "kept"));
    }
    assert_eq!((output, client.owed()), (b"TYPE A\r\n".to_vec(), 1));
    assert!(client.into_values().eq(["sent"]));
    Ok(())
}

/// A reply 1yz is preliminary, and any other one is final (RFC 959, section 4.2.1).
#[test]
fn each_code_but_1yz_takes_the_value() -> Result<(), Error> {
    let mut client = Client::with_values();
    client.receive(b"220 Ready\r\n")?;
    assert!(matches!(client.next_reply_with()?, Some(taken) if taken.to == To::Greeting));
    for code in 0..1000 {
        client.send_line_with(b"NOOP\r\n", code, &mut Vec::new())?;
        client.receive(format!("{code:03} text\r\n").as_bytes())?;
        let taken = client.next_reply_with()?.expect("a reply");
        assert_eq!(taken.reply.is_preliminary(), code / 100 == 1);
        match taken.to {
            To::Command(ReplyValue::Preliminary(value)) if code / 100 == 1 => *value += 1000,
            To::Command(ReplyValue::Final(value)) if code / 100 != 1 => {
                assert_eq!(value, code);
                continue;
            }
            other => panic!("{code:03} is to {other:?}"),
        }
        client.receive(b"200 OK\r\n")?;
        let last = client.next_reply_with()?.expect("a reply");
        assert_eq!(last.to, To::Command(ReplyValue::Final(code + 1000)));
    }
    client.receive(b"421 Idle\r\n")?;
    assert!(matches!(client.next_reply_with()?, Some(taken) if taken.to == To::Nothing));
    Ok(())
}

#[test]
fn values_are_in_the_order_of_their_lines() -> Result<(), Error> {
    let mut client = Client::with_values();
    for value in 0..5 {
        client.send_with(&Command::Noop, value, &mut Vec::new())?;
    }
    client.receive(b"220 Ready\r\n200 OK\r\n150 Wait\r\n")?;
    while client.next_reply_with()?.is_some() {}
    assert!(client.values().eq(&[1, 2, 3, 4]));
    client.values_mut().for_each(|value| *value *= 10);
    assert_eq!((client.owed(), client.values().len()), (4, 4));
    assert!(client.clone().into_values().rev().eq([40, 30, 20, 10]));
    client.receive(b"200 OK\r\n")?;
    let taken = client.next_reply_with()?.expect("a reply");
    assert_eq!(taken.to, To::Command(ReplyValue::Final(10)));
    Ok(())
}

/// The codes of the replies that a client takes.
fn taken_codes(server: &mut Client) -> Result<Vec<u16>, Error> {
    let mut codes = Vec::new();
    while let Some(taken) = server.next_reply()? {
        codes.push(taken.reply.code());
    }
    Ok(codes)
}

#[test]
fn a_line_is_taken_once_the_last_one_is_sent_or_answered() -> Result<(), Error> {
    let (mut server, mut output) = (Client::new(), Vec::new());
    assert!(server.may_take_line() && server.may_take_line() && server.take_line());
    assert!(!server.may_take_line() && !server.take_line());
    assert_eq!(server.send_line(b"NOOP", &mut output), Err(Error::NotALine));
    assert!(!server.take_line());
    server.send_line(b"NOOP\r\n", &mut output)?;
    assert!(server.take_line());
    server.receive(b"220 Ready\r\n200 OK\r\n")?;
    assert_eq!(taken_codes(&mut server)?, [220, 200]);
    assert!(!server.take_line());
    assert!(server.answer(ReplyCode::COMMAND_NOT_IMPLEMENTED) && server.may_take_line());
    assert_eq!((server.sent(), output.as_slice()), (1, &b"NOOP\r\n"[..]));
    Ok(())
}

/// What comes after AUTH TLS may be no line (RFC 4217, section 4).
#[test]
fn no_line_is_taken_while_auth_is_owed_its_reply() -> Result<(), Error> {
    let (mut server, mut output) = (Client::new(), Vec::new());
    assert!(server.take_line());
    server.send_line(b"AUTH TLS\r\n", &mut output)?;
    for replies in [&b""[..], b"220 Ready\r\n", b"120 Wait\r\n"] {
        server.receive(replies)?;
        taken_codes(&mut server)?;
        assert!(!server.may_take_line() && !server.take_line());
    }
    server.receive(b"534 No\r\n")?;
    assert_eq!(taken_codes(&mut server)?, [534]);
    assert!(server.may_take_line() && server.take_line());
    Ok(())
}

#[test]
fn an_answer_is_given_once_nothing_is_owed_before_it() -> Result<(), Error> {
    let refused = |server: &mut Client, code| !server.may_answer(code) && !server.answer(code);
    let (mut server, code) = (Client::new(), ReplyCode::COMMAND_SYNTAX_ERROR);
    assert!(refused(&mut server, code), "no line is taken");
    assert!(server.take_line() && refused(&mut server, code), "the greeting is owed");
    server.receive(b"120 Wait\r\n220 Ready\r\n")?;
    assert!(refused(&mut server, code), "no reply was taken");
    assert!(server.next_reply()?.is_some() && refused(&mut server, code));
    assert!(server.next_reply()?.is_some() && server.may_answer(code));
    for number in 100..=599 {
        let code = ReplyCode::new(number).expect("a code");
        assert_eq!(server.may_answer(code), number > 199);
        assert!(number > 199 || refused(&mut server, code), "another reply would have to follow");
    }
    assert!(server.answer(code) && refused(&mut server, code), "it was answered");

    server.send_line(b"NOOP\r\n", &mut Vec::new())?;
    assert!(server.take_line() && refused(&mut server, code), "a reply is owed");
    server.receive(b"150 Wait\r\n")?;
    assert!(taken_codes(&mut server)? == [150] && refused(&mut server, code));
    server.receive(b"200 OK\r\n")?;
    assert!(taken_codes(&mut server)? == [200] && server.answer(code));
    Ok(())
}

#[test]
fn a_held_reply_stays_pending_and_owed() -> Result<(), Error> {
    let mut server = Client::with_values();
    let end = ReplyCode::COMMAND_NOT_IMPLEMENTED;
    server.send_line_with(b"RETR a\r\n", "a download", &mut Vec::new())?;
    assert_eq!(server.first_reply_with()?, None);
    server.receive(b"220-Ready\r\n22")?;
    assert_eq!(server.first_reply_with()?, None);
    server.receive(b"0 Ready\r\n150 Opening\r\n226 Done\r\n421 Idle\r\n")?;
    for (to, code) in [
        (To::Greeting, 220),
        (To::Command("a download"), 150),
        (To::Command("a download"), 226),
        (To::Nothing, 421),
    ] {
        let pending = server.bytes().to_vec();
        for _ in 0..2 {
            let held = server.first_reply_with()?.expect("a reply");
            let value = match held.to {
                To::Command(value) => To::Command(*value),
                To::Greeting => To::Greeting,
                To::Nothing => To::Nothing,
            };
            assert_eq!((value, held.reply.code()), (to, code));
            assert_eq!((server.bytes(), server.is_greeted()), (&pending[..], code != 220));
            assert_eq!(server.owed(), u64::from(code != 421));
        }
        assert!(code != 226 || server.take_line() && !server.answer(end));
        // it is found, and more comes before it is taken
        server.receive(b"")?;
        assert_eq!(server.next_reply_with()?.map(|taken| taken.reply.code()), Some(code));
    }
    assert!(server.bytes().is_empty() && server.answer(end));
    Ok(())
}

/// The law `calls_keep_the_order`, of calls in any order: the value of a line is its place among
/// those of the proxy's client.
#[test]
fn whatever_is_called_each_line_has_one_exchange_in_order() -> Result<(), Error> {
    let mut state = 1u64;
    let mut random = |below: u64| {
        state = state.wrapping_mul(6364136223846793005).wrapping_add(1442695040888963407);
        (state >> 33) % below
    };
    let (mut server, mut greeted) = (Client::with_values(), false);
    let (mut lines, mut is_taken, mut answered, mut own) = (0u64, false, 0u64, 0);
    for _ in 0..100_000 {
        let code = [120, 200, 234, 421, 502][random(5) as usize];
        match random(6) {
            0 if server.take_line() => {
                assert!(!is_taken);
                (lines, is_taken) = (lines + 1, true);
            }
            1 => {
                (lines, is_taken) = (lines + u64::from(!is_taken), false);
                let line = [&b"NOOP\r\n"[..], b"AUTH TLS\r\n"][random(2) as usize];
                server.send_line_with(line, lines - 1, &mut Vec::new())?;
            }
            2 if server.answer(ReplyCode::new(code).expect("a code")) => {
                assert!(greeted && is_taken && code != 120);
                (is_taken, answered, own) = (false, answered + 1, own + 1);
                assert_eq!(answered, lines);
            }
            3..=5 => {
                server.receive(format!("{code} text\r\n").as_bytes())?;
                let taken = server.next_reply_with()?.expect("a reply");
                assert_eq!(greeted, taken.to != To::Greeting);
                greeted |= code != 120;
                match taken.to {
                    To::Command(ReplyValue::Preliminary(line)) => assert_eq!(*line, answered),
                    To::Command(ReplyValue::Final(line)) => {
                        assert_eq!(line, answered);
                        answered += 1;
                    }
                    To::Nothing => assert_eq!(answered, lines - u64::from(is_taken)),
                    To::Greeting => {}
                }
            }
            _ => {}
        }
    }
    assert!(own > 100 && answered > 10_000, "{own} of {answered} answers are the proxy's own");
    Ok(())
}

#[test]
fn a_first_reply_is_refused_as_the_next_one_is() -> Result<(), Error> {
    let mut server = Client::<u8>::with_limit_and_values(8);
    server.receive(b"220 a\r\n220 too long\r\n")?;
    assert!(server.first_reply_with()?.is_some() && server.next_reply_with()?.is_some());
    for _ in 0..2 {
        assert_eq!(server.first_reply_with(), Err(Error::ReplyTooLong));
        assert_eq!(server.next_reply_with(), Err(Error::ReplyTooLong));
    }
    let mut server = Client::<u8>::with_values();
    server.receive(b"what\r\n")?;
    assert_eq!(server.first_reply_with(), Err(Error::MalformedReply));
    assert_eq!(server.next_reply_with(), Err(Error::MalformedReply));
    assert_eq!(server.bytes(), b"what\r\n");
    Ok(())
}

#[test]
fn texts_of_errors_are_short() {
    for (error, text) in [
        (Error::OutOfMemory, "out of memory"),
        (Error::Refused(Refusal::LineTooLong), "line too long"),
        (Error::NoLine, "no line gives this command"),
        (Error::NotALine, "not one line"),
        (Error::MalformedReply, "malformed reply"),
        (Error::ReplyTooLong, "reply too long"),
    ] {
        assert_eq!(error.to_string(), text);
    }
    assert_eq!(UnknownCode.to_string(), "no reply has this code");
}
