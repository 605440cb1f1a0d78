use crate::area::written;
use crate::error::Error;
use crate::ffi;

/// The canonical line of a line's command, with its CR LF: a line that means the same, in the one
/// form that the library writes. A parameter that the command ignores is lost: of `TYPE A` it is
/// `TYPE I`, of `ALLO 5` `ALLO 0`, and of `EPSV ALL` `EPSV`.
///
/// ```
/// use unftp_control::canonical;
///
/// assert_eq!(canonical(b"xcwd a\n")?, b"CWD a\r\n");
/// assert_eq!(canonical(b"list -la x\r\n")?, b"LIST x\r\n");
/// # Ok::<(), unftp_control::Error>(())
/// ```
///
/// # Errors
///
/// [`Error::Refused`] for a line that is no command; [`Error::NoLine`], but never for a line whose
/// one line feed is its last byte; and [`Error::OutOfMemory`].
pub fn canonical(line: &[u8]) -> Result<Vec<u8>, Error> {
    written(line.len() + 16, |out| ffi::canonical(line, out))
}

/// The line that a proxy sends to a server for a client's line: what [`forward`] returns.
#[derive(Clone, Debug, PartialEq, Eq)]
#[non_exhaustive]
pub struct Forwarded {
    /// Its bytes, with CR LF at their end. Those of PASS hold the password.
    pub bytes: Vec<u8>,
    /// Whether it is clear, as by [`is_clear`].
    pub is_clear: bool,
}

/// The line that a proxy sends to a server for a client's line, with its CR LF: a line that means
/// the same, and keeps what no command holds. It is the verb in upper case and the bytes of the
/// parameter as they came. It is the canonical line for a verb that takes no value, as NOOP, and
/// for STRU, MODE, OPTS, AUTH, PBSZ, PROT and REST.
///
/// It keeps what servers read in different ways: a bare CR, a NUL or a byte 255 in a parameter, and
/// a verb with other bytes than letters and digits, as in `DELE\tb`. So a proxy that allows only
/// some commands sends only a line that is clear, and of these only commands that it has on a list:
/// XRMD and XCUP, for example, are [`Command::Other`](crate::Command::Other).
///
/// ```
/// use unftp_control::forward;
///
/// assert_eq!(forward(b"retr a\xe9\n")?.bytes, b"RETR a\xe9\r\n");
/// assert_eq!(forward(b"list -la x\r\n")?.bytes, b"LIST -la x\r\n");
/// assert_eq!(forward(b"rest +07\r\n")?.bytes, b"REST 7\r\n");
/// assert!(forward(b"RETR a\r\n")?.is_clear && !forward(b"DELE\tb\r\n")?.is_clear);
/// # Ok::<(), unftp_control::Error>(())
/// ```
///
/// # Errors
///
/// [`Error::NotALine`] exactly where the bytes have no line feed at their end, or one before it;
/// [`Error::Refused`] for a line that is no command; and [`Error::OutOfMemory`].
pub fn forward(line: &[u8]) -> Result<Forwarded, Error> {
    let mut is_clear = false;
    let written = written(line.len() + 16, |out| {
        let (status, len, clear) = ffi::forward(line, out);
        is_clear = clear;
        (status, len)
    });
    match written {
        Ok(bytes) => Ok(Forwarded { bytes, is_clear }),
        Err(Error::NoLine) => Err(Error::NotALine),
        Err(error) => Err(error),
    }
}

/// Whether the line is clear: its verb has only letters and digits of ASCII, and at least one, and
/// before the CR LF at its end there is no CR, LF, NUL or byte 255. So it has none of the bytes
/// that servers are known to read in different ways. A proxy that refuses commands sends no other
/// line: a server may read a command in it that this crate does not. [`forward`] returns it with each
/// line.
///
/// It is a form of line, and no promise that all servers read it alike. Known exceptions are
/// `TYPE  I` with two spaces, NOOP with spaces or 5,000 bytes after it, `SIZE ~/a`, and
/// `MDTM 20010203040506 a`, by which vsftpd sets the time of a file.
///
/// ```
/// use unftp_control::is_clear;
///
/// assert!(is_clear(b"SITE CHMOD 777 a\r\n"));
/// assert!(!is_clear(b"TYPE A\rSITE CHMOD 777 a\r\n"));
/// assert!(!is_clear(b"DELE\ta\r\n"));
/// ```
#[must_use]
pub fn is_clear(line: &[u8]) -> bool {
    ffi::is_clear(line)
}
