//! The codecs for tokio, under `Framed` and by themselves.
#![cfg(feature = "tokio-util")]
mod common;

use bytes::BytesMut;
use common::{bytes, calls, limit, pieces, shown_decoded, shown_reply, sizes, without_lefts};
use futures_util::{SinkExt, StreamExt};
use std::io;
use std::pin::Pin;
use std::task::{Context, Poll};
use tokio::io::{
    AsyncBufReadExt, AsyncRead, AsyncReadExt, AsyncWrite, AsyncWriteExt, BufReader, ReadBuf,
};
use tokio_util::codec::{Decoder, Encoder, Framed, FramedRead};
use unftp_control::{
    is_clear, CodecError, Command, Error, Event, FtpClientCodec, FtpCodec, FtpLineCodec, NameLine,
    OwnedLine, Pending, ProxyCodec, RawLine, Refusal, Reply, ReplyCode, ReplyValue, SinkError, To,
};

/// A reader that gives one piece after the other, and then the end or an error.
struct Pieces<'a> {
    pieces: std::vec::IntoIter<&'a [u8]>,
    error: Option<io::ErrorKind>,
}

impl<'a> Pieces<'a> {
    fn new(pieces: Vec<&'a [u8]>) -> Pieces<'a> {
        Pieces { pieces: pieces.into_iter(), error: None }
    }
}

impl AsyncRead for Pieces<'_> {
    fn poll_read(
        mut self: Pin<&mut Self>,
        _: &mut Context<'_>,
        buffer: &mut ReadBuf<'_>,
    ) -> Poll<io::Result<()>> {
        if let Some(mut piece) = self.pieces.next() {
            if piece.len() > buffer.remaining() {
                let (now, later) = piece.split_at(buffer.remaining());
                let mut pieces = vec![later];
                pieces.extend(self.pieces.by_ref());
                self.pieces = pieces.into_iter();
                piece = now;
            }
            buffer.put_slice(piece);
        } else if let Some(error) = self.error {
            return Poll::Ready(Err(error.into()));
        }
        Poll::Ready(Ok(()))
    }
}

/// The events that a codec takes from a stream of pieces, and what its end is: how many bytes are
/// left.
async fn events_of<D: Decoder<Error = CodecError>>(
    codec: D,
    event_of: fn(D::Item) -> Event<'static>,
    pieces: Vec<&[u8]>,
) -> String {
    let mut framed = FramedRead::new(Pieces::new(pieces), codec);
    let mut parts = Vec::new();
    let mut end = "left=0".to_string();
    while let Some(event) = framed.next().await {
        match event {
            Ok(item) => parts.push(shown_decoded(&event_of(item))),
            Err(CodecError::Incomplete { left }) => {
                assert_eq!(framed.read_buffer().len(), left);
                end = format!("left={left}{}", if left == 0 { " skipping" } else { "" });
            }
            Err(error) => panic!("{error}"),
        }
    }
    parts.push(end);
    parts.join(" | ")
}

#[tokio::test]
async fn any_pieces_give_the_events_of_the_vectors() {
    for file in ["decode.tsv", "client_streams.tsv", "worked.tsv"] {
        for (at, (words, answer)) in calls(file, &["decode"]).into_iter().enumerate() {
            let input: Vec<u8> = words[1..].iter().flat_map(|word| bytes(word)).collect();
            for size in sizes(&input) {
                let (limit, pieces) = (limit(&words[0]), pieces(&input, size, at as u64));
                let codec = FtpCodec::with_limit(limit);
                let events = events_of(codec, |event| event, pieces.clone()).await;
                assert_eq!(events, without_lefts(&answer), "{words:?} by {size}");
                let codec = FtpLineCodec::with_limit(limit);
                let events = events_of(codec, |line| line.event, pieces).await;
                assert_eq!(events, without_lefts(&answer), "{words:?} by {size}, with lines");
            }
        }
    }
}

#[tokio::test]
async fn any_pieces_give_the_replies_of_the_vectors() {
    for (at, (words, answer)) in calls("server_replies.tsv", &["read"]).into_iter().enumerate() {
        let stream = bytes(&words[0]);
        for size in sizes(&stream) {
            let pieces = Pieces::new(pieces(&stream, size, at as u64));
            let mut framed = FramedRead::new(pieces, FtpClientCodec::with_limit(0));
            let (mut replies, mut end) = (Vec::new(), " rest=0".to_string());
            while let Some(reply) = framed.next().await {
                match reply {
                    Ok(reply) => replies.push(shown_reply(&reply.reply)),
                    Err(CodecError::Incomplete { left }) => end = format!(" rest={left}"),
                    Err(CodecError::Control(Error::MalformedReply)) => {
                        end = format!(" rest={} malformed", framed.read_buffer().len());
                        break;
                    }
                    Err(error) => panic!("{error}"),
                }
            }
            let (wanted, _) = answer.split_once(" malformed").unwrap_or((&answer, ""));
            let found = replies.join(";") + &end;
            match answer.ends_with("malformed") {
                // the error comes with the line, where bytes after it may not be read
                true => assert!(found.ends_with(" malformed"), "{words:?} by {size}"),
                false => assert_eq!(found, wanted, "{words:?} by {size}"),
            }
        }
    }
}

#[tokio::test]
async fn a_bad_line_costs_only_itself() {
    let input =
        b"NOOP\r\nNOOP x\r\nPWD\r\n\xff\r\nSYST\r\nUSER a\rb\r\nFEAT\r\nRETR a.txt\r\nQUIT\r\n";
    let framed = FramedRead::new(&input[..], FtpCodec::with_limit(10));
    let events: Vec<_> = framed.map(|event| event.expect("no error")).collect().await;
    let command = Event::Command;
    let expected = [
        command(Command::Noop),
        Event::Refused(Refusal::InvalidCommand),
        command(Command::Pwd),
        Event::Refused(Refusal::InvalidUtf8),
        command(Command::Syst),
        Event::Refused(Refusal::InvalidEol),
        command(Command::Feat),
        Event::Refused(Refusal::LineTooLong),
        command(Command::Quit),
    ];
    assert_eq!(events, expected);
}

#[tokio::test]
async fn the_end_within_a_line_is_an_error_that_loses_nothing() {
    let mut framed = FramedRead::new(&b"NOOP\r\nREST x\r\nQUI"[..], FtpCodec::new());
    let noop = framed.next().await.expect("a line").expect("no error");
    assert_eq!(noop, Event::Command(Command::Noop));
    let refused = framed.next().await.expect("a line").expect("no error");
    assert_eq!(refused, Event::Refused(Refusal::InvalidCommand));
    let end = framed.next().await.expect("an error").expect_err("no event");
    assert!(matches!(end, CodecError::Incomplete { left: 3 }), "{end:?}");
    let text = "the input ended within a line or a reply, after 3 bytes of it";
    assert_eq!(end.to_string(), text);
    assert!(framed.next().await.is_none());
    assert_eq!(framed.read_buffer(), &b"QUI"[..]);
}

#[tokio::test]
async fn the_end_after_a_line_is_no_error() {
    for input in [&b""[..], b"NOOP\r\n", b"NOOP\n\n"] {
        let framed = FramedRead::new(input, FtpCodec::new());
        let events: Vec<_> = framed.map(|event| event.expect("no error")).collect().await;
        assert_eq!(events.len(), input.iter().filter(|byte| **byte == b'\n').count());
    }
}

#[tokio::test]
async fn the_end_within_a_line_that_is_too_long_is_an_error() {
    let mut framed = FramedRead::new(&b"NOOP\r\n0123456789"[..], FtpCodec::with_limit(6));
    assert!(framed.next().await.expect("a line").is_ok());
    let end = framed.next().await.expect("an error").expect_err("no event");
    assert!(matches!(end, CodecError::Incomplete { left: 0 }), "{end:?}");
}

#[tokio::test]
async fn no_more_than_the_limit_is_kept() {
    let line = b"0123456789".repeat(100_000);
    let input = [&line[..], b"\r\nNOOP\r\n"].concat();
    let mut framed = FramedRead::new(&input[..], FtpCodec::with_limit(100));
    let first = framed.next().await.expect("a line").expect("no error");
    assert_eq!(first, Event::Refused(Refusal::LineTooLong));
    assert!(framed.read_buffer().capacity() < 100_000);
    let second = framed.next().await.expect("a line").expect("no error");
    assert_eq!(second, Event::Command(Command::Noop));
}

#[tokio::test]
async fn an_error_of_the_reader_ends_the_stream() {
    let mut reader = Pieces::new(vec![b"NOOP\r\nQU"]);
    reader.error = Some(io::ErrorKind::ConnectionReset);
    let mut framed = FramedRead::new(reader, FtpCodec::new());
    assert!(framed.next().await.expect("a line").is_ok());
    let error = framed.next().await.expect("an error").expect_err("no event");
    assert!(
        matches!(&error, CodecError::Io(error) if error.kind() == io::ErrorKind::ConnectionReset)
    );
    assert_eq!(framed.read_buffer(), &b"QU"[..]);
}

/// The texts of an error and of its sources.
fn chain(error: &dyn std::error::Error) -> Vec<String> {
    let errors = std::iter::successors(Some(error), |error| error.source());
    errors.map(ToString::to_string).collect()
}

#[derive(Debug)]
struct Outer(Error);

impl std::fmt::Display for Outer {
    fn fmt(&self, f: &mut std::fmt::Formatter<'_>) -> std::fmt::Result {
        f.write_str("outer")
    }
}

impl std::error::Error for Outer {
    fn source(&self) -> Option<&(dyn std::error::Error + 'static)> {
        Some(&self.0)
    }
}

#[test]
fn no_error_is_named_twice() {
    let reset = io::Error::from(io::ErrorKind::ConnectionReset);
    let text = reset.to_string();
    assert_eq!(chain(&CodecError::from(reset)), [text]);
    let outer = io::Error::other(Outer(Error::ReplyTooLong));
    assert_eq!(chain(&CodecError::from(outer)), ["outer", "reply too long"]);
    let refused = CodecError::from(Error::Refused(Refusal::InvalidCommand));
    assert_eq!(chain(&refused), ["invalid command"]);
    assert_eq!(chain(&CodecError::Incomplete { left: 3 }).len(), 1);
}

#[test]
fn the_pending_bytes_stay_where_they_are() {
    let mut codec = FtpCodec::new();
    let mut input = BytesMut::from("RETR a.txt\r\nNOOP\r\nQU");
    let start = input.as_ptr() as usize;
    for (left, at) in [(8, 12), (2, 18), (2, 18)] {
        codec.decode(&mut input).expect("memory is there");
        assert_eq!((input.len(), input.as_ptr() as usize - start), (left, at));
    }
    input.extend_from_slice(b"IT\r\n");
    assert_eq!(codec.decode(&mut input).unwrap(), Some(Event::Command(Command::Quit)));
}

#[test]
fn a_buffer_that_is_used_up_has_its_room_again() {
    let mut codec = FtpCodec::with_limit(16);
    // a command without a field, one with a value, and a piece of a line that is too long
    for piece in ["NOOP\r\n", "RETR a\r\n", "01234567890123456789"] {
        let mut input = BytesMut::from(piece);
        let capacity = input.capacity();
        codec.decode(&mut input).expect("memory is there");
        assert_eq!((input.len(), input.capacity()), (0, capacity), "{piece}");
    }
}

/// The items that a codec takes from these bytes, which are then gone.
fn items_of<D: Decoder<Error = CodecError>>(mut codec: D, bytes: &[u8]) -> Vec<D::Item> {
    let mut input = BytesMut::from(bytes);
    let items = std::iter::from_fn(|| codec.decode(&mut input).expect("memory is there")).collect();
    assert_eq!(input, "");
    items
}

#[test]
fn an_event_outlives_its_bytes() {
    let lines = b"NOOP\r\nRETR a b\r\nRETR a\r\0b\r\nRETR caf\xe9\r\nUSER caf\xe9\r\nauth tls\r\n\
        REST +5\r\nLIST -la\r\nsite chmod 644 a\r\nclnt x y\r\nclnt\r\nNOOP x\r\n\r\n";
    let mut pending = Pending::new();
    pending.push(lines).expect("memory is there");
    let events = items_of(FtpCodec::new(), lines);
    assert_eq!(events.len(), 13);
    for (event, item) in events.into_iter().zip(items_of(FtpLineCodec::new(), lines)) {
        let line = pending.next_line().expect("memory is there").expect("a line is pending");
        assert_eq!((&event, &item.event, &item.bytes[..]), (&line.event, &line.event, line.bytes));
    }
}

#[test]
fn no_text_of_a_codec_has_a_password() {
    let text = |line: &str| {
        let mut codec = FtpCodec::new();
        assert!(codec.decode(&mut BytesMut::from(line)).unwrap().is_some());
        format!("{codec:?} {:?}", FramedRead::new(tokio::io::empty(), codec.clone()))
    };
    assert_eq!(text("PASS a\r\n"), text("PASS secret\r\n"));
}

#[test]
fn a_buffer_that_was_cleared_is_read_from_its_start() {
    let mut codec = FtpCodec::new();
    let mut input = BytesMut::from("AUTH");
    assert_eq!(codec.decode(&mut input).unwrap(), None);
    input.clear();
    input.extend_from_slice(b"\r\n");
    assert!(codec.decode(&mut input).unwrap().is_some());

    let mut codec = FtpClientCodec::new();
    let mut input = BytesMut::from("220-a\r\n220");
    assert_eq!(codec.decode(&mut input).unwrap(), None);
    input.clear();
    input.extend_from_slice(b"331 b\r\n");
    assert_eq!(codec.decode(&mut input).unwrap().map(|reply| reply.reply.code()), Some(331));
}

#[test]
fn replies_are_appended() {
    let mut codec = FtpCodec::new();
    let mut sent = BytesMut::new();
    let mut expected = Vec::new();
    for (words, answer) in calls("encode.tsv", &["encode"]) {
        let words: Vec<&str> = words.iter().map(String::as_str).collect();
        let Some(reply) = common::cases::read_reply(&words) else { continue };
        reply.encode(&mut sent).expect("memory is there");
        codec.encode(reply, &mut sent).expect("memory is there");
        expected.extend(bytes(&answer).repeat(2));
    }
    assert_eq!(sent, expected);
}

#[test]
fn a_line_that_is_no_line_of_a_command_is_not_sent() {
    let mut codec = FtpClientCodec::new();
    let mut sent = BytesMut::from("NOOP\r\n");
    for (line, wanted) in [
        (&b"RETR a\r\nDELE b\r\n"[..], Error::NotALine),
        (b"RETR a", Error::NotALine),
        (b"NOOP x\r\n", Error::Refused(Refusal::InvalidCommand)),
    ] {
        match codec.encode(line, &mut sent) {
            Err(CodecError::Control(error)) => assert_eq!(error, wanted),
            other => panic!("{other:?}"),
        }
    }
    codec.encode(b"type a\n", &mut sent).expect("it is a line");
    assert_eq!(sent, &b"NOOP\r\nTYPE a\r\n"[..]);
}

#[test]
fn a_raw_line_is_sent_as_it_is() -> Result<(), CodecError> {
    let mut codec = FtpClientCodec::new();
    let mut sent = BytesMut::new();
    codec.encode(RawLine(b"OPTS MLST size;\r\n"), &mut sent)?;
    codec.encode(RawLine(b"type e\n"), &mut sent)?;
    for line in [&b"RETR a\r\nDELE b\r\n"[..], b"RETR a", b""] {
        let error = codec.encode(RawLine(line), &mut sent).expect_err("it is not one line");
        assert!(matches!(error, CodecError::Control(Error::NotALine)), "{error:?}");
    }
    assert_eq!(sent, "OPTS MLST size;\r\ntype e\n");
    assert_eq!((codec.sent(), codec.owed()), (2, 2));
    assert_eq!(format!("{:?}", RawLine(b"PASS secret\r\n")), "RawLine { .. }");
    Ok(())
}

#[test]
fn what_was_sent_is_the_place_of_the_next_command() -> Result<(), CodecError> {
    let mut codec = FtpClientCodec::new();
    let (mut sent, mut input) = (BytesMut::new(), BytesMut::from("220 Ready\r\n"));
    assert_eq!(codec.decode(&mut input)?.map(|reply| reply.to), Some(To::Greeting));
    for count in 0..3 {
        assert_eq!(codec.sent(), count);
        codec.encode(Command::Noop, &mut sent)?;
        assert!(codec.encode(b"NOOP x\r\n", &mut sent).is_err());
        input.extend_from_slice(b"200 OK\r\n");
        assert_eq!(codec.decode(&mut input)?.map(|reply| reply.to), Some(To::Command(count)));
    }
    assert_eq!(codec.sent(), 3);
    Ok(())
}

/// No value is copied: this type can't be.
#[derive(Debug, PartialEq)]
struct Asked(Vec<u16>);

#[tokio::test]
async fn a_value_comes_back_with_the_final_reply() -> Result<(), CodecError> {
    let (near, mut far) = tokio::io::duplex(1024);
    let mut server = Framed::new(near, FtpClientCodec::with_values());
    for line in [&b"RETR a\r\n"[..], b"NOOP\r\n", b"QUIT\r\n"] {
        server.send((line, Asked(Vec::new()))).await?;
    }
    far.write_all(b"220 Hi\r\n110 MARK\r\n150 Here\r\n226 Done\r\n200 OK\r\n221 Bye\r\n421 ?\r\n")
        .await?;
    drop(far);
    let (mut values, mut places) = (Vec::new(), Vec::new());
    while let Some(taken) = server.next().await.transpose()? {
        places.push(taken.to);
        match server.codec_mut().reply_value() {
            Some(ReplyValue::Preliminary(asked)) => asked.0.push(taken.reply.code()),
            // the value of NOOP is not asked for
            Some(ReplyValue::Final(asked)) if taken.reply.code() != 200 => values.push(asked),
            Some(ReplyValue::Final(_)) => {}
            None => assert!(matches!(taken.to, To::Greeting | To::Nothing)),
        }
        if taken.reply.code() > 199 {
            assert!(server.codec_mut().reply_value().is_none());
        }
    }
    assert_eq!(values, [Asked(vec![110, 150]), Asked(vec![])]);
    let to = [To::Greeting, To::Command(0), To::Command(0), To::Command(0)];
    assert_eq!(places, [&to[..], &[To::Command(1), To::Command(2), To::Nothing]].concat());
    Ok(())
}

#[test]
fn a_value_that_is_not_taken_is_dropped_with_the_next_reply() -> Result<(), CodecError> {
    let (mut codec, mut sent) = (FtpClientCodec::with_values(), BytesMut::new());
    codec.encode((Command::Noop, 1), &mut sent)?;
    codec.encode((Command::Pwd, 2), &mut sent)?;
    let mut input = BytesMut::from("220 Hi\r\n200 OK\r\n257 \"/\"\r\n421 ?\r\n");
    codec.decode(&mut input)?;
    codec.decode(&mut input)?;
    assert!(codec.values().eq(&[2]));
    codec.decode(&mut input)?;
    assert_eq!(codec.reply_value(), Some(ReplyValue::Final(2)));
    codec.decode(&mut input)?;
    assert_eq!(codec.reply_value(), None);
    assert_eq!(codec.into_values().len(), 0);
    Ok(())
}

#[test]
fn the_value_of_a_line_that_is_not_sent_is_given_back() {
    let (mut codec, mut sent) = (FtpClientCodec::with_values(), BytesMut::new());
    let error = codec.encode((NameLine("RETR", b"a\nDELE b"), 7), &mut sent);
    let error = error.expect_err("two lines");
    assert_eq!(
        (error.to_string(), format!("{error:?}").contains('7')),
        ("not one line".into(), false)
    );
    match error {
        SinkError::Unsent(unsent) => assert_eq!((unsent.error, unsent.value), (Error::NotALine, 7)),
        error => panic!("{error}"),
    }
    assert_eq!((codec.owed(), codec.values().len(), sent.len()), (0, 0, 0));
}

#[test]
fn a_codec_keeps_the_order_of_a_proxy() -> Result<(), CodecError> {
    let (mut server, mut sent) = (FtpClientCodec::with_values(), BytesMut::new());
    let code = ReplyCode::COMMAND_NOT_IMPLEMENTED;
    assert!(server.may_take_line() && server.take_line());
    server.encode((RawLine(b"NOOP\r\n"), "a line"), &mut sent)?;
    assert!(server.take_line());
    assert!(!server.may_answer(code) && !server.answer(code));
    assert!(!server.may_take_line() && !server.take_line());
    let mut input = BytesMut::from("220 Ready\r\n200 OK\r\n");
    while server.decode(&mut input)?.is_some() {}
    assert!(!server.may_answer(ReplyCode::FILE_STATUS_OKAY));
    assert!(server.may_answer(code) && server.answer(code));
    assert!(!server.answer(code) && server.take_line());
    Ok(())
}

#[test]
fn a_reply_over_the_limit_is_an_error() {
    let mut codec = FtpClientCodec::with_limit(10);
    let mut input = BytesMut::from("220 read\r\n220 ready\r\n");
    assert!(codec.decode(&mut input).unwrap().is_some());
    let error = codec.decode(&mut input).expect_err("it is too long");
    assert!(matches!(error, CodecError::Control(Error::ReplyTooLong)), "{error:?}");
    assert_eq!(input, "220 ready\r\n");
}

#[tokio::test]
async fn a_client_and_a_server_talk() -> Result<(), CodecError> {
    let (near, far) = tokio::io::duplex(7);
    let server = tokio::spawn(async move {
        let mut server = Framed::new(far, FtpCodec::new());
        server.send(Reply::new(ReplyCode::SERVICE_READY, "Ready")).await?;
        while let Some(event) = server.next().await {
            let reply = match event? {
                Event::Command(Command::Feat) => {
                    Reply::with_lines(ReplyCode::SYSTEM_STATUS, ["Features:", " UTF8", "End"])
                }
                Event::Command(_) => Reply::new(ReplyCode::COMMAND_OKAY, "OK"),
                Event::Refused(why) => Reply::new(ReplyCode::COMMAND_SYNTAX_ERROR, why.to_string()),
            };
            server.feed(reply).await?;
            server.flush().await?;
        }
        Ok::<(), CodecError>(())
    });
    let mut client = Framed::new(near, FtpClientCodec::new());
    let mut replies = vec![client.next().await.expect("a greeting")?];
    client.send(b"FEAT\r\n").await?;
    replies.push(client.next().await.expect("a reply")?);
    for line in [&b"noop\n"[..], b"RETR a.txt\r\n"] {
        client.send(line).await?;
        replies.push(client.next().await.expect("a reply")?);
    }
    client.get_mut().write_all(b"NOOP x\r\n").await?;
    replies.push(client.next().await.expect("a reply")?);
    drop(client);
    server.await.expect("the server ends")?;
    let codes: Vec<u16> = replies.iter().map(|reply| reply.reply.code()).collect();
    assert_eq!(codes, [220, 211, 200, 200, 500]);
    let to: Vec<To> = replies.iter().map(|reply| reply.to).collect();
    assert_eq!(to[..4], [To::Greeting, To::Command(0), To::Command(1), To::Command(2)]);
    // this line was not sent by the codec
    assert_eq!(to[4], To::Nothing);
    assert!(replies[1].reply.lines().eq([&b"Features:"[..], b" UTF8", b"End"]));
    Ok(())
}

#[tokio::test]
async fn a_line_comes_with_its_event() {
    let input = b"type a\r\nNOOP NOOP NOOP\r\nPASS secret\r\nQU";
    let mut framed = FramedRead::new(&input[..], FtpLineCodec::with_limit(13));
    let (mut lines, mut parameters) = (Vec::new(), Vec::new());
    while let Some(Ok(line)) = framed.next().await {
        assert_eq!(format!("{line:?}"), format!("OwnedLine {{ event: {:?}, .. }}", line.event));
        assert!(!format!("{line:?}").contains("secret"));
        parameters.extend(line.parameter().expect("each has a value"));
        parameters.push(b',');
        lines.push((line.event, line.bytes));
    }
    assert_eq!(parameters, b"a,,secret,");
    let password = b"secret".to_vec().into();
    let expected = [
        (Event::Command(Command::Type), &b"type a\r\n"[..]),
        (Event::Refused(Refusal::LineTooLong), b""),
        (Event::Command(Command::Pass { password }), b"PASS secret\r\n"),
    ];
    assert!(lines
        .iter()
        .map(|(event, bytes)| (event, &bytes[..]))
        .eq(expected.iter().map(|(event, bytes)| (event, *bytes))));
    assert_eq!(framed.read_buffer(), &b"QU"[..]);
}

#[test]
fn each_reply_of_a_server_is_passed_on_as_it_came() -> Result<(), CodecError> {
    let mut replies = 0;
    for (words, _) in calls("server_replies.tsv", &["read"]) {
        let stream = bytes(&words[0]);
        let (mut server, mut client) = (FtpClientCodec::with_limit(0), ProxyCodec(FtpCodec::new()));
        let (mut input, mut output) = (BytesMut::from(&stream[..]), BytesMut::new());
        while let Ok(Some(taken)) = server.decode(&mut input) {
            client.encode(taken.reply.into(), &mut output)?;
            replies += 1;
        }
        output.extend_from_slice(&input);
        assert_eq!(output, stream, "{words:?}");
    }
    assert!(replies > 9000, "{replies} replies");
    Ok(())
}

/// Passes on what a server says, and answers each line that is not clear, once it may.
async fn relay(
    client: impl AsyncRead + AsyncWrite + Unpin,
    server: impl AsyncRead + AsyncWrite + Unpin,
) -> Result<(), CodecError> {
    let mut client = Framed::new(client, ProxyCodec(FtpLineCodec::new()));
    let mut server = Framed::new(server, FtpClientCodec::new());
    let (mut waiting, mut is_open) = (None::<Reply>, true);
    while is_open || waiting.is_some() || server.codec().owed() > 0 {
        tokio::select! {
            taken = server.next() => {
                let Some(taken) = taken.transpose()? else { break };
                client.feed(taken.reply.into()).await?;
                client.flush().await?;
            }
            line = client.next(), if is_open && server.codec().may_take_line() => {
                match line.transpose()? {
                    Some(line) => waiting = decide(&mut server, &line).await?,
                    None => is_open = false,
                }
            }
        }
        match waiting.take() {
            Some(reply) if server.codec_mut().answer(reply.code()) => {
                client.send(reply.into()).await?;
            }
            later => waiting = later,
        }
    }
    client.close().await
}

/// Takes the next line, and sends it, or has the answer to it.
async fn decide(
    server: &mut Framed<impl AsyncWrite + Unpin, FtpClientCodec>,
    line: &OwnedLine,
) -> Result<Option<Reply>, CodecError> {
    assert!(server.codec_mut().take_line());
    if !is_clear(&line.bytes) {
        return Ok(Some(Reply::new(ReplyCode::COMMAND_SYNTAX_ERROR, "Not clear")));
    }
    server.send(&line.bytes[..]).await?;
    Ok(None)
}

#[tokio::test]
async fn a_proxy_sends_replies_of_both_kinds() -> Result<(), CodecError> {
    let (near, to_client) = tokio::io::duplex(64);
    let (to_server, far) = tokio::io::duplex(64);
    let proxy = tokio::spawn(relay(to_client, to_server));
    // a server that repeats each line after a code that no `Reply` has
    let server = tokio::spawn(async move {
        let (mut far, mut line) = (BufReader::new(far), Vec::new());
        far.write_all(b"220-\xff\r\n 7\r\n8\r\n220 \r\n").await?;
        while far.read_until(b'\n', &mut line).await? > 0 {
            far.write_all(&[b"150 \xfe\r\n631 ", &line[..]].concat()).await?;
            line.clear();
        }
        Ok::<(), io::Error>(())
    });
    let (mut reader, mut writer) = tokio::io::split(near);
    writer.write_all(b"noop\r\nDELE\ta\r\ncwd \xe9\r\n").await?;
    writer.shutdown().await?;
    let mut output = Vec::new();
    reader.read_to_end(&mut output).await?;
    let greeting = &b"220-\xff\r\n 7\r\n8\r\n220 \r\n"[..];
    let replies = &b"150 \xfe\r\n631 NOOP\r\n500 Not clear\r\n150 \xfe\r\n631 CWD \xe9\r\n"[..];
    assert_eq!(output, [greeting, replies].concat());
    proxy.await.expect("the proxy ends")?;
    Ok(server.await.expect("the server ends")?)
}
