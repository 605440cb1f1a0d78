//! Replies to faults of files.
use rustix::io::Errno;
use std::io;
use unftp_control::{Error, Reply, ReplyCode as Code};

/// The reply to a line without the value that its command needs.
pub fn of_line_error(error: Error) -> Reply {
    match error {
        Error::Refused(refusal) => refusal.reply(),
        _ => Reply::new(Code::LOCAL_ERROR, "Out of memory"),
    }
}

/// The reply to LIST or NLST that a fault of a file ends, for which RFC 959, section 5.4, has 450 and
/// no 550.
pub fn of_listing_error(error: &io::Error) -> Reply {
    let reply = of_error(error);
    if reply.code() == Code::FILE_ERROR {
        let text = reply.lines().next().unwrap_or_default().to_vec();
        return Reply::of_bytes(Code::TRANSIENT_FILE_ERROR, text);
    }
    reply
}

/// The reply to a command that a fault of a file ends.
pub fn of_error(error: &io::Error) -> Reply {
    let (code, text) = match Errno::from_io_error(error) {
        Some(Errno::NOENT) => (Code::FILE_ERROR, "No such file or directory"),
        Some(Errno::NOTDIR) => (Code::FILE_ERROR, "Not a directory"),
        Some(Errno::ACCESS | Errno::PERM | Errno::ROFS) => (Code::FILE_ERROR, "Permission denied"),
        Some(Errno::AGAIN) => (Code::TRANSIENT_FILE_ERROR, "The file is busy"),
        Some(Errno::XDEV | Errno::LOOP) => (Code::FILE_ERROR, "It leads out of the folder"),
        Some(Errno::EXIST) => (Code::FILE_ERROR, "There is one already"),
        Some(Errno::NOTEMPTY) => (Code::FILE_ERROR, "The directory is not empty"),
        Some(Errno::ISDIR) => (Code::FILE_ERROR, "It is a directory"),
        Some(Errno::INVAL | Errno::NAMETOOLONG | Errno::ILSEQ) => {
            (Code::BAD_FILE_NAME, "File name not allowed")
        }
        Some(Errno::NOSPC | Errno::DQUOT) => (Code::OUT_OF_SPACE, "No room is left"),
        Some(Errno::FBIG) => (Code::EXCEEDED_STORAGE_ALLOCATION, "The file is too large"),
        Some(Errno::IO | Errno::MFILE | Errno::NFILE | Errno::NOMEM) => {
            (Code::LOCAL_ERROR, "A fault of the server")
        }
        _ => (Code::FILE_ERROR, "The file is not available"),
    };
    Reply::new(code, text)
}

/// The reply to a transfer that a fault of its file ends.
pub fn of_transfer_error(error: &io::Error) -> Reply {
    match Errno::from_io_error(error) {
        Some(Errno::NOSPC | Errno::DQUOT | Errno::FBIG) => of_error(error),
        _ => Reply::new(Code::LOCAL_ERROR, "The file could not be read or written"),
    }
}
