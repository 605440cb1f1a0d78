//! Prints the versions of two crates and of the library for C in one program, each by its own call.
use std::io::Write;

extern "C" {
    fn unftp_version() -> u32;
}

fn main() -> Result<(), Box<dyn std::error::Error>> {
    // SAFETY: it takes nothing, and returns a number.
    let of_c = unsafe { unftp_version() };
    assert_eq!(this::canonical(b"noop\n")?, other::canonical(b"noop\n")?);
    writeln!(std::io::stdout(), "{} {} {of_c}", this::library_version(), other::library_version())?;
    Ok(())
}
