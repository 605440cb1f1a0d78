//! Each command by its variant and fields.
mod common;

use common::cases::is_one_line;
use std::borrow::Cow;
use std::collections::HashSet;
use unftp_control::{Command, Event, Password, Pending, RawBytes, Refusal};

/// The event of a line.
fn event_of(line: &[u8]) -> Event<'static> {
    let mut pending = Pending::with_limit(0);
    pending.push(line).expect("memory is there");
    let event = pending.next_event().expect("memory is there").expect("the line is complete");
    event.into_owned()
}

fn command_of(line: &[u8]) -> Command<'static> {
    match event_of(line) {
        Event::Command(command) => command,
        Event::Refused(refusal) => panic!("{}: {refusal}", line.escape_ascii()),
    }
}

/// The lines of the vector files by hand, each with one line feed at its end.
fn lines() -> Vec<Vec<u8>> {
    let rows = ["parse.tsv", "worked.tsv"].into_iter().flat_map(|it| common::calls(it, &["parse"]));
    rows.map(|(words, _)| common::bytes(&words[0])).filter(|it| is_one_line(it)).collect()
}

#[test]
fn all_44_variants_are_reached() {
    let events = lines().into_iter().map(|line| event_of(&line));
    let variants: HashSet<_> = events
        .filter_map(|event| match event {
            Event::Command(command) => Some(std::mem::discriminant(&command)),
            Event::Refused(_) => None,
        })
        .collect();
    assert_eq!(variants.len(), 44);
}

#[test]
fn an_owned_event_is_equal() {
    for line in lines() {
        let mut pending = Pending::new();
        pending.push(&line).expect("memory is there");
        let event = pending.next_event().expect("memory is there").expect("the line is complete");
        assert_eq!(event.clone().into_owned(), event);
    }
}

#[test]
fn what_is_borrowed_is_not_copied() {
    let mut pending = Pending::new();
    pending.push(b"SITE a b\r\nUSER c\r\n").expect("memory is there");
    let event = pending.next_event().expect("memory is there");
    let Some(Event::Command(Command::Site { command, arguments })) = event else {
        panic!("{event:?}");
    };
    assert!(matches!((command, arguments), (Cow::Borrowed("A"), Cow::Borrowed("b"))));
    let event = pending.next_event().expect("memory is there");
    let Some(Event::Command(Command::User { username })) = event else { panic!("{event:?}") };
    assert_eq!(username.into_vec(), b"c");
}

/// The last field of a command with texts or bytes.
fn value_of<'a>(command: &'a Command<'_>) -> &'a [u8] {
    match command {
        Command::User { username } => username,
        Command::Pass { password } => password.as_bytes(),
        Command::Stat { path: Some(path) } => path,
        Command::Retr { path } | Command::List { path: Some(path), .. } => path.as_bytes(),
        Command::Site { arguments, .. } | Command::Other { arguments, .. } => arguments.as_bytes(),
        command => panic!("{command:?}"),
    }
}

#[test]
fn a_value_is_a_part_of_its_line_where_that_has_it() {
    let rows = [
        (&b"retr a b\r\n"[..], &b"a b"[..], true),
        (b"RETR a\r\0b\r\n", b"a\rb", false),
        (b"RETR caf\xc3\xa9\n", b"caf\xc3\xa9", true),
        (b"RETR caf\xe9\r\n", b"caf\xef\xbf\xbd", false),
        (b"LIST -la x\r\n", b"x", true),
        (b"USER caf\xe9\r\n", b"caf\xe9", true),
        (b"PASS a\r\0\r\n", b"a\r", false),
        (b"STAT \xff\r\n", b"\xff", true),
        (b"site chmod 644 a\r\n", b"644 a", true),
        (b"site chmod \xff\r\n", b"\xef\xbf\xbd", false),
        (b"clnt x y\r\n", b"x y", true),
        (b"clnt x\r\0y\r\n", b"x\ry", false),
    ];
    // all together, so that each area has what the line before left in it
    let mut pending = Pending::new();
    pending.push(&rows.map(|(line, ..)| line).concat()).expect("memory is there");
    for (bytes, value, is_part) in rows {
        let line = pending.next_line().expect("memory is there").expect("a line is pending");
        assert_eq!(line.bytes, bytes);
        let Event::Command(command) = &line.event else { panic!("{line:?}") };
        let found = value_of(command);
        assert_eq!(found, value, "{}", bytes.escape_ascii());
        assert_eq!(line.bytes.as_ptr_range().contains(&found.as_ptr()), is_part, "{line:?}");
    }
}

#[test]
fn bytes_are_as_they_were_sent_and_texts_are_utf8() {
    let user = Command::User { username: b"caf\xe9\r".into() };
    assert_eq!(command_of(b"USER caf\xe9\r\0\r\n"), user);
    let stat = Command::Stat { path: Some(b"\xff".into()) };
    assert_eq!(command_of(b"STAT \xff\n"), stat);
    assert_eq!(command_of(b"RETR a\xffb\n"), Command::Retr { path: "a\u{fffd}b".into() });
    let other = Command::Other { command_name: "ß".into(), arguments: "\u{fffd}".into() };
    assert_eq!(command_of(b"\xc3\x9f \xff\r\n"), other);
}

#[test]
fn each_refusal_has_its_reason() {
    for (line, refusal) in [
        (&b"REST 18446744073709551616\r\n"[..], Refusal::InvalidCommand),
        (b"NOOP x\r\n", Refusal::InvalidCommand),
        (b"MODE s\r\n", Refusal::InvalidCommand),
        (b"SITE MD5\r\n", Refusal::InvalidCommand),
        (b"AUTH \xff\r\n", Refusal::InvalidUtf8),
        (b"SITE \xff\r\n", Refusal::InvalidUtf8),
        (b"\xff\r\n", Refusal::InvalidUtf8),
        (b"USER a\rb\r\n", Refusal::InvalidEol),
    ] {
        assert_eq!(event_of(line), Event::Refused(refusal), "{}", line.escape_ascii());
    }
}

/// What each form of a value that has a Debug text is, under each of the formatter's flags.
macro_rules! debug_texts {
    ($value:expr) => {
        [
            format!("{:?}", $value),
            format!("{:#?}", $value),
            format!("{:x?}", $value),
            format!("{:#X?}", $value),
            format!("{:>99?}", $value),
            format!("{:-^+#099.3?}", $value),
            format!("{:.0?}", $value),
        ]
    };
}

#[test]
fn debug_shows_the_variant_and_its_fields() {
    for (line, debug) in [
        (&b"USER a\xff\"b\r\n"[..], r#"User { username: "a\xff\"b" }"#),
        (b"ACCT a\r\n", r#"Acct { account: "a" }"#),
        (b"STAT /\r\n", r#"Stat { path: Some("/") }"#),
        (b"RETR a\r\n", r#"Retr { path: "a" }"#),
        (b"NOOP\r\n", "Noop"),
        (b"PASS secret\r\n", "Pass { password: Password { bytes: ******* } }"),
        (b"LIST -la x\r\n", r#"List { options: None, path: Some("x") }"#),
        (b"OPTS UTF8 ON\r\n", "Opts { option: Utf8 { on: true } }"),
        (b"REST 5\r\n", "Rest { offset: 5 }"),
        (b"SITE MD5 a\r\n", r#"Md5 { file: "a" }"#),
    ] {
        assert_eq!(format!("{:?}", command_of(line)), debug);
    }
    let path = format!("{:#?}", command_of(b"STAT /\r\n"));
    assert_eq!(path, "Stat {\n    path: Some(\n        \"/\",\n    ),\n}");
}

#[test]
fn debug_hides_what_may_be_a_password() {
    for (line, debug) in [
        (&b" PASS x\r\n"[..], "Other { command_name: ***, arguments: *** }"),
        (b"PSAS x\r\n", "Other { command_name: ***, arguments: *** }"),
        (b"PASS\tx\r\n", "Other { command_name: ***, arguments: *** }"),
        (b"PASSx\r\n", "Other { command_name: ***, arguments: *** }"),
        (b"\r\n", "Other { command_name: ***, arguments: *** }"),
        (b"adat eA==\r\n", r#"Other { command_name: "ADAT", arguments: *** }"#),
        (b"REIN\r\n", r#"Other { command_name: "REIN", arguments: *** }"#),
        (b"XRMD\r\n", r#"Other { command_name: "XRMD", arguments: *** }"#),
        (b"site chmod 644 a\r\n", r#"Site { command: "CHMOD", arguments: "644 a" }"#),
        (b"SITE UMASK\r\n", r#"Site { command: "UMASK", arguments: "" }"#),
        (b"SITE PSWD old new\r\n", r#"Site { command: "PSWD", arguments: *** }"#),
        (b"SITE HELP\r\n", r#"Site { command: "HELP", arguments: *** }"#),
        (b"SITE PASS x\r\n", "Site { command: ***, arguments: *** }"),
        (b"SITE chmod\t644 a\r\n", "Site { command: ***, arguments: *** }"),
        (b"SITE\r\n", "Site { command: ***, arguments: *** }"),
    ] {
        let event = event_of(line);
        assert_eq!(format!("{event:?}"), format!("Command({debug})"), "{}", line.escape_ascii());
    }
}

#[test]
fn no_text_depends_on_what_is_hidden() {
    for (one, other) in [
        (&b"PSAS secret\r\n"[..], &b"PAS\r\n"[..]),
        (b" PASS secret\r\n", b"\r\n"),
        (b"PASS\tsecret\r\n", b"SEND a\r\n"),
        (b"ADAT secret\r\n", b"ADAT\r\n"),
        (b"SITE PSWD old new\r\n", b"SITE PSWD\r\n"),
        (b"SITE secret\r\n", b"SITE\r\n"),
    ] {
        assert_eq!(debug_texts!(event_of(one)), debug_texts!(event_of(other)));
    }
}

#[test]
fn no_text_depends_on_a_password() {
    let texts = |password: &[u8]| {
        let line = [b"PASS ", password, b"\r\n"].concat();
        let mut pending = Pending::new();
        pending.push(&line).expect("memory is there");
        let mut texts = Vec::new();
        let event = pending.next_event().expect("memory is there").expect("it is a line");
        texts.extend(debug_texts!(event));
        let Event::Command(command) = event.into_owned() else { panic!("it is a command") };
        texts.extend(debug_texts!(command));
        let Command::Pass { password } = command else { panic!("it is PASS") };
        texts.extend(debug_texts!(password));
        texts.extend([format!("{password}"), format!("{password:>60}"), format!("{password:.3}")]);
        texts.extend(debug_texts!(pending));
        texts
    };
    assert_eq!(texts(b"secret"), texts(b"\xff"));
    assert_eq!(texts(b"secret"), texts(b""));
    assert_eq!(debug_texts!(Password::from(b"a")), ["Password { bytes: ******* }"; 7]);
}

#[test]
fn passwords_are_what_the_vectors_say() {
    for (words, answer) in common::calls("worked.tsv", &["password"]) {
        let bytes = common::bytes(&words[0]);
        let password = Password::from(&bytes);
        let shown = common::shown::quoted(password.as_bytes());
        let texts = format!("\"{password}\" alike \"{password:?}\" alike bytes={shown}");
        assert_eq!(texts, answer);
    }
}

#[test]
fn raw_bytes_compare_with_all_that_are_bytes() {
    let bytes = RawBytes::from(b"ab");
    assert_eq!(bytes, b"ab");
    assert_eq!(bytes, b"ab"[..]);
    assert_eq!(bytes, "ab");
    assert_eq!(bytes, b"ab".to_vec());
    assert_eq!(bytes, RawBytes::from(b"ab".to_vec()));
    assert_ne!(bytes, "a");
    assert_eq!(bytes.len(), 2);
}
