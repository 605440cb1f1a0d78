//! Measures `Pending` and the replies: prints the nanoseconds that a line or a reply takes, the
//! median of 50 rounds with the least and the greatest.
use std::io::{self, Write};
use std::time::Instant;
use unftp_control::{Error, Event, Pending, Reply, ReplyCode};

const ROUNDS: usize = 50;
const CALLS: usize = 1000;

/// The lines of a session, as a client sends them.
const SESSION: &str =
    "USER anonymous\r\nPASS guest@example.org\r\nSYST\r\nFEAT\r\nOPTS UTF8 ON\r\n\
PWD\r\nTYPE I\r\nCWD /pub/linux/kernel/v6.x\r\nEPSV\r\nLIST -la\r\nPORT 192,168,150,90,195,149\r\n\
NLST *.tar.xz\r\nSIZE linux-6.1.55.tar.xz\r\nMDTM linux-6.1.55.tar.xz\r\nREST 1048576\r\n\
RETR linux-6.1.55.tar.xz\r\nSITE CHMOD 644 upload.txt\r\nXCRC linux-6.1.55.tar.xz\r\nNOOP\r\n\
QUIT\r\n";

/// Takes the events of an input of so many lines.
fn take_events(input: &[u8], lines: usize) -> Result<(), Error> {
    let mut pending = Pending::new();
    pending.push(input)?;
    let mut events = 0;
    while let Some(event) = pending.next_event()? {
        assert!(matches!(event, Event::Command(_)));
        events += 1;
    }
    assert_eq!(events, lines);
    Ok(())
}

/// Makes replies of one line.
fn make_replies() -> Result<(), Error> {
    for _ in 0..CALLS {
        let bytes = Reply::new(ReplyCode::COMMAND_OKAY, "OK").to_bytes()?;
        assert_eq!(bytes, b"200 OK\r\n");
    }
    Ok(())
}

/// Prints what a call takes, by the time of many calls.
fn measure(name: &str, mut calls: impl FnMut() -> Result<(), Error>) -> Result<(), Error> {
    let mut taken = Vec::new();
    for _ in 0..ROUNDS {
        let begun = Instant::now();
        calls()?;
        taken.push(begun.elapsed().as_nanos() / CALLS as u128);
    }
    taken.sort_unstable();
    let (least, median, most) = (taken[0], taken[ROUNDS / 2], taken[ROUNDS - 1]);
    let _ = writeln!(io::stdout(), "{name}: {median} ns ({least} to {most})");
    Ok(())
}

fn main() -> Result<(), Error> {
    let mixed = SESSION.repeat(CALLS / SESSION.lines().count());
    let noops = "NOOP\r\n".repeat(CALLS);
    measure("Pending, a mixed line", || take_events(mixed.as_bytes(), CALLS))?;
    measure("Pending, NOOP", || take_events(noops.as_bytes(), CALLS))?;
    measure("a reply of one line", make_replies)
}
