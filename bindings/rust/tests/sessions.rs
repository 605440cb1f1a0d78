//! What a log, a client and a login do, beside what the library in Rattle does: the rows of
//! `vectors/`.
mod common;

use common::cases::read_bytes;
use common::{bytes, calls, limit, rows, shown_decoded};
use unftp_control::{
    canonical, log_line, Client, ClientReply, Command, Error, Event, Login, LoginStep, Pending,
    ReplyValue, To,
};

#[test]
fn each_line_has_its_log_line() {
    for (words, answer) in calls("worked.tsv", &["log"]) {
        let mut pending = Pending::with_limit(limit(&words[0]));
        pending.push(&bytes(&words[1])).expect("memory is there");
        let line = pending.next_line().expect("memory is there").expect("a line");
        let logged = line.log_line().expect("memory is there");
        assert_eq!(logged.text.as_bytes(), bytes(&answer), "{words:?}");
    }
}

#[test]
fn a_command_is_shown_as_its_log_line() {
    let mut compared = 0;
    for file in ["parse.tsv", "client_lines.tsv"] {
        for (words, _) in calls(file, &["parse"]) {
            let Ok(written) = canonical(&bytes(&words[0])) else { continue };
            let mut pending = Pending::with_limit(0);
            pending.push(&written).expect("memory is there");
            let line = pending.next_line().expect("memory is there").expect("a line");
            let Event::Command(command) = &line.event else { panic!("{words:?}") };
            let logged = line.log_line().expect("memory is there").text;
            let wanted = match command {
                Command::Type | Command::Allo => command.verb().into(),
                _ => logged.replacen("LIST -- -", "LIST -", 1),
            };
            assert_eq!(command.to_string(), wanted);
            compared += 1;
        }
    }
    assert!(compared > 1000, "{compared} commands");
}

/// The command of a line, with this value in place of its own, of those that the rows write so.
fn with_value<'a>(line: &Event, value: &'a [u8]) -> Command<'a> {
    let text = || std::str::from_utf8(value).expect("a text").into();
    let Event::Command(command) = line else { panic!("{line:?}") };
    match command {
        Command::User { .. } => Command::User { username: value.into() },
        Command::Stat { .. } => Command::Stat { path: Some(value.into()) },
        Command::Retr { .. } => Command::Retr { path: text() },
        Command::Nlst { .. } => Command::Nlst { path: Some(text()) },
        Command::Md5 { .. } => Command::Md5 { file: text() },
        Command::Site { command, .. } => {
            Command::Site { command: command.to_string().into(), arguments: text() }
        }
        _ => panic!("no value of {command:?} is read here"),
    }
}

/// The command of this variant that no line gives.
fn unread<'a>(variant: &str, text: &'a str) -> Command<'a> {
    match variant {
        "List" => Command::List { options: Some(text.into()), path: None },
        "Site" => Command::Site { command: text.into(), arguments: "".into() },
        "Other" => Command::Other { command_name: text.into(), arguments: "".into() },
        _ => panic!("no text of {variant} is read here"),
    }
}

#[test]
fn each_command_has_its_line_or_none() {
    for (words, answer) in calls("worked.tsv", &["write"]) {
        let given: Vec<Vec<u8>> = words.iter().filter_map(|word| read_bytes(word)).collect();
        let mut pending = Pending::with_limit(0);
        pending.push(&given[0]).expect("memory is there");
        let line = pending.next_event().expect("memory is there");
        let command = match (words.len(), given.as_slice(), &line) {
            (1, [_], Some(Event::Command(command))) => command.clone(),
            (2, [_, value], Some(line)) => with_value(line, value),
            (2, [text], _) => unread(&words[0], std::str::from_utf8(text).expect("a text")),
            _ => panic!("{words:?}"),
        };
        match command.to_line() {
            Ok(line) => assert_eq!(line, bytes(&answer), "{words:?}"),
            Err(error) => assert_eq!((error, answer.as_str()), (Error::NoLine, "NoLine")),
        }
    }
}

#[test]
fn each_command_has_its_canonical_line() {
    for file in ["parse.tsv", "client_lines.tsv", "worked.tsv"] {
        for (words, _) in calls(file, &["parse"]) {
            let line = bytes(&words[0]);
            if !common::cases::is_one_line(&line) {
                continue;
            }
            let mut pending = Pending::with_limit(0);
            pending.push(&line).expect("memory is there");
            if let Some(Event::Command(command)) = pending.next_event().expect("memory is there") {
                assert_eq!(command.to_line(), canonical(&line), "{words:?}");
            }
        }
    }
}

/// A client, and one beside it in which the value of each line is its place.
struct Clients {
    plain: Client,
    valued: Client<u64>,
}

impl Clients {
    fn with_limit(limit: usize) -> Clients {
        let plain = Client::with_limit(limit);
        Clients { plain, valued: Client::with_limit_and_values(limit) }
    }

    /// Sends the line of a command as the command itself, or a line as it is.
    fn send(&mut self, act: &str, line: &[u8]) -> Result<u64, Error> {
        let (mut output, mut beside, place) = (Vec::new(), Vec::new(), self.plain.sent());
        let (sent, with_value) = if act == "send" {
            let sent = self.plain.send_line(line, &mut output);
            assert!(sent.is_err() || output == line);
            (sent, self.valued.send_line_with(line, place, &mut beside))
        } else {
            let mut pending = Pending::with_limit(0);
            pending.push(line).expect("memory is there");
            let event = pending.next_event().expect("memory is there");
            let Some(Event::Command(command)) = event else { panic!("{event:?} is no command") };
            let sent = self.plain.send(&command, &mut output);
            (sent, self.valued.send_with(&command, place, &mut beside))
        };
        assert_eq!(output, beside);
        assert_eq!(sent, with_value.map_err(|unsent| unsent.error));
        sent
    }

    fn receive(&mut self, bytes: &[u8]) {
        self.plain.receive(bytes).expect("memory is there");
        self.valued.receive(bytes).expect("memory is there");
    }

    /// What the next reply is to, and its code.
    fn next_reply(&mut self) -> Result<Option<(To, u16)>, Error> {
        let taken = self.plain.next_reply();
        let taken = taken.map(|taken| taken.map(|taken| (taken.to, taken.reply.code())));
        assert_eq!(taken, self.valued.next_reply_with().map(|taken| taken.map(placed)));
        let (sent, owed) = (self.plain.sent(), self.plain.owed());
        assert!(self.valued.values().copied().eq(sent - owed..sent));
        taken
    }
}

/// The same of a reply that comes with its place.
fn placed(taken: ClientReply<'_, ReplyValue<'_, u64>>) -> (To, u16) {
    let code = taken.reply.code();
    let place = match taken.to {
        To::Greeting => return (To::Greeting, code),
        To::Nothing => return (To::Nothing, code),
        To::Command(ReplyValue::Preliminary(place)) if taken.reply.is_preliminary() => *place,
        To::Command(ReplyValue::Final(place)) if !taken.reply.is_preliminary() => place,
        To::Command(value) => panic!("{code:03} with {value:?}"),
    };
    (To::Command(place), code)
}

/// Takes all complete replies.
fn take_replies(clients: &mut Clients, parts: &mut Vec<String>) {
    loop {
        match clients.next_reply() {
            Ok(Some((To::Greeting, code))) => parts.push(format!("greeting {code:03}")),
            Ok(Some((To::Command(place), code))) => parts.push(format!("{place} {code:03}")),
            Ok(Some((To::Nothing, code))) => parts.push(format!("nothing {code:03}")),
            Ok(None) => return,
            Err(error) => {
                let is_long = error == Error::ReplyTooLong;
                parts.push(if is_long { "too-long" } else { "malformed" }.to_string());
                return;
            }
        }
    }
}

#[test]
fn each_reply_is_to_its_command() {
    let mut replies = 0;
    for file in ["connections.tsv", "worked.tsv"] {
        for (words, answer) in calls(file, &["client"]) {
            let mut clients = Clients::with_limit(limit(&words[0]));
            let mut parts = Vec::new();
            let mut acts = words[1..].iter();
            while let Some(act) = acts.next() {
                if act == "send" || act == "command" {
                    let line = bytes(acts.next().expect("a line"));
                    if clients.send(act, &line).is_err() {
                        parts.push("not sent".to_string());
                    }
                    continue;
                }
                clients.receive(&bytes(act));
                take_replies(&mut clients, &mut parts);
            }
            let client = clients.plain;
            let tls = if client.tls_agreed() { " tls" } else { "" };
            let left = client.bytes().len();
            parts.push(format!("owed={} left={left}{tls}", client.owed()));
            assert_eq!(parts.join(" | "), answer, "{words:?}");
            replies += parts.len();
        }
    }
    assert!(replies > 5000, "{replies} replies");
}

/// The accounts of `login_demo`.
const ACCOUNTS: [(&[u8], &[u8]); 2] = [(b"anna", b"secret"), (b"ben", b"other")];

/// The codes of the replies that a login gives to events, and a dash for each that it passes on.
fn answers(input: &[u8]) -> Vec<String> {
    let (mut login, mut pending) = (Login::new(), Pending::new());
    pending.push(input).expect("memory is there");
    let mut answers = Vec::new();
    while let Some(event) = pending.next_event().expect("memory is there") {
        let is_last = matches!(event, Event::Command(Command::Quit));
        answers.push(match login.event(&event) {
            LoginStep::PassOn => "-".to_string(),
            LoginStep::Answer(reply) => reply.code().get().to_string(),
            LoginStep::AskAccounts { name, password } => {
                let is_known = ACCOUNTS.contains(&(name, password.as_bytes()));
                login.answer(is_known).code().get().to_string()
            }
        });
        if is_last {
            break;
        }
    }
    answers
}

/// The codes of the replies in an output, the greeting left out.
fn codes(output: &[u8]) -> Vec<String> {
    let mut decoder = unftp_control::ReplyDecoder::new();
    decoder.push(output).expect("memory is there");
    let mut codes = Vec::new();
    while let Some(reply) = decoder.next_reply().expect("they are replies") {
        codes.push(reply.code().to_string());
    }
    codes.split_off(1)
}

/// `login_demo` has the gate of the library in Rattle, so each reply of the login is one of its own.
#[test]
fn a_login_answers_as_a_gate_does() {
    let mut compared = 0;
    for mut row in rows("programs.tsv") {
        let output = row.pop().expect("an output");
        if row[1] != "login_demo" || !output.starts_with('"') {
            continue;
        }
        let input: Vec<u8> = row[2..].iter().flat_map(|word| bytes(word)).collect();
        let codes = codes(&bytes(&output));
        let answers = answers(&input);
        if codes.len() != answers.len() || codes.iter().any(|code| code == "421") {
            // the handler has replies of several parts, or the limit has ended the session
            continue;
        }
        for (code, answer) in codes.iter().zip(&answers) {
            assert!(answer == "-" && code != "530" || answer == code, "{row:?}: {code} {answer}");
            compared += 1;
        }
    }
    assert!(compared > 50, "{compared} replies");
}

#[test]
fn an_answer_that_was_not_asked_for_logs_nobody_in() {
    let mut login = Login::new();
    assert_eq!(login.answer(true).code().get(), 503);
    assert_eq!(login.name(), None);
    let user = Event::Command(Command::User { username: b"anna".into() });
    let pass = Event::Command(Command::Pass { password: b"secret".into() });
    assert!(matches!(login.event(&user), LoginStep::Answer(_)));
    assert!(matches!(login.event(&pass), LoginStep::AskAccounts { .. }));
    // the next event comes before the answer, which is then too late
    assert_eq!(login.event(&Event::Command(Command::Noop)), LoginStep::PassOn);
    assert_eq!(login.answer(true).code().get(), 503);
    assert_eq!(login.name(), None);
}

#[test]
fn nothing_shows_a_password() {
    let mut pending = Pending::new();
    pending.push(b"USER anna\r\nPASS s3cret\r\n").expect("memory is there");
    let mut login = Login::new();
    let mut shown = String::new();
    while let Some(event) = pending.next_event().expect("memory is there") {
        shown += &format!("{event:?} {:?}", login.event(&event));
        shown += &format!("{login:?} {}", shown_decoded(&event).len());
        if let Event::Command(command) = &event {
            shown += &command.to_string();
        }
        shown += &log_line(&event, b"PASS s3cret\r\n").expect("memory is there").text;
    }
    let other = Command::Other { command_name: "PSAS".into(), arguments: "s3cret\n".into() };
    shown += &format!("{other} {other:?}");
    let lost = Command::Pass { password: b"s3cret\n".into() };
    shown += &format!("{lost} {lost:?}");
    assert!(!shown.contains("s3cret"), "{shown}");
}

#[test]
fn a_command_that_no_line_gives_is_shown_as_its_verb() {
    for (command, shown) in [
        (Command::Retr { path: "".into() }, "RETR"),
        (Command::Retr { path: "a\nb".into() }, "RETR"),
        (Command::Md5 { file: "".into() }, "SITE"),
        (Command::Site { command: "CHMOD".into(), arguments: "644\na".into() }, "SITE"),
        (Command::List { options: Some("-l".into()), path: None }, "LIST"),
        (Command::Stat { path: Some(b"".into()) }, "STAT"),
        (Command::User { username: b"a\nb".into() }, "USER"),
        (Command::Acct { account: b"a\nb".into() }, "ACCT"),
        (Command::Pass { password: b"a\nb".into() }, "PASS"),
        (Command::Other { command_name: "RETR".into(), arguments: "".into() }, "***"),
        (Command::Other { command_name: "a".into(), arguments: "".into() }, "***"),
        (Command::Other { command_name: "ADAT".into(), arguments: "a\nb".into() }, "***"),
    ] {
        assert_eq!(command.to_line(), Err(Error::NoLine), "{command:?}");
        assert_eq!(command.to_string(), shown, "{command:?}");
    }
}
