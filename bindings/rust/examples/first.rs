//! What each line of an input is.
use unftp_control::{Error, Pending};

fn main() -> Result<(), Error> {
    let mut pending = Pending::new();
    pending.push(b"RETR a.txt\r\nNOOP x\r\nQU")?;
    while let Some(event) = pending.next_event()? {
        println!("{event:?}");
    }
    Ok(())
}
