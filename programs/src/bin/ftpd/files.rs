//! The commands that name a file or a directory.
use crate::commands::{directory, refuse, reply, Answer, Answered};
use crate::folder::{is_type, FilePath, Folder, New};
use crate::line::{first_word, parameter, subcommand_parameter, with_nul};
use crate::listing::{fact_list, parsed_time, time_value, Form, Listing};
use crate::replies;
use crate::representation::Representation;
use crate::session::Session;
use crate::transfer::{blocking, size, Start, Work};
use crate::upload::Target;
use crate::users::Rights;
use rustix::fs::FileType;
use rustix::io::Errno;
use std::borrow::Cow;
use std::io;
use std::mem;
use unftp_control::{OwnedLine, Reply, ReplyCode as Code};

impl Session {
    pub fn restart(&mut self, offset: u64) -> Answered {
        if self.representation == Representation::Ascii && offset > 0 {
            return refuse(Code::COMMAND_NOT_IMPLEMENTED_FOR_PARAMETER, "Only in TYPE I");
        }
        self.offset = offset;
        reply(Code::FILE_ACTION_PENDING, format!("The next transfer begins at {offset}"))
    }

    /// Where the next transfer begins, whose file has so many bytes.
    fn start(&self, offset: u64, size: u64) -> Result<u64, Reply> {
        if offset > 0 && self.representation == Representation::Ascii {
            return Err(Reply::new(Code::BAD_COMMAND_SEQUENCE, "REST came before TYPE A"));
        }
        if offset > size {
            return Err(invalid_restart());
        }
        Ok(offset)
    }

    /// Refuses a transfer without a data connection, or with one in clear text that has to be under
    /// TLS (RFC 4217, section 7).
    fn data_connection(&self) -> Result<(), Reply> {
        if self.server.settings.common.require_tls && !self.is_private {
            let text = "Data connections are under TLS only: use PROT P";
            return Err(Reply::new(Code::ADDRESS_FAMILY_NOT_SUPPORTED, text));
        }
        if !self.data_port.is_prepared() {
            let text = "PASV, EPSV, PORT or EPRT comes first";
            return Err(Reply::new(Code::CANT_OPEN_DATA_CONNECTION, text));
        }
        Ok(())
    }

    /// Refuses what the user may not do.
    fn needs(&self, may: fn(Rights) -> bool) -> Result<(), Reply> {
        if may(self.rights) {
            return Ok(());
        }
        let text = match self.rights {
            Rights::Upload => "You may only add files",
            Rights::Add => "You may change no files",
            Rights::Read | Rights::Write => "You may only read",
        };
        Err(Reply::new(Code::FILE_ERROR, text))
    }

    /// Does something with what a client names, which may wait for a disk.
    async fn in_folder<T: Send + 'static>(
        &self,
        named: &[u8],
        work: impl FnOnce(&Folder, &FilePath) -> io::Result<T> + Send + 'static,
    ) -> Result<T, Reply> {
        let (folder, path) = (self.folder.clone(), self.directory.join(named));
        let done = blocking(move || work(&folder, &path)).await;
        done.map_err(|error| replies::of_error(&error))
    }

    /// Looks for what a client names: here and now where that waits for nothing, since it takes less
    /// time than another thread takes to begin.
    async fn look_up<T: Send + 'static>(
        &self,
        named: &[u8],
        work: impl Fn(&Folder, &FilePath) -> io::Result<T> + Send + 'static,
    ) -> Result<T, Reply> {
        match work(&self.folder.in_memory(), &self.directory.join(named)) {
            Ok(found) => Ok(found),
            Err(_) => self.in_folder(named, work).await,
        }
    }

    /// What receives a file, and how many bytes it has. Where there is none, it is only made for a
    /// transfer that begins at its start.
    async fn target(&self, named: &[u8], offset: u64, new: New) -> Result<(Target, u64), Reply> {
        let (cut, may_change) = (self.server.settings.cut_uploads, self.rights.may_change());
        let target = move |folder: &Folder, path: &FilePath| match new {
            _ if !may_change => Target::new(folder, path, cut),
            New::Written if offset == 0 => Target::whole(folder, path, cut),
            new => Target::rest(folder, path, offset, new, cut),
        };
        self.in_folder(named, target).await
    }

    /// Changes what a client names, where the user may.
    async fn change<T: Send + 'static>(
        &self,
        named: &[u8],
        work: impl FnOnce(&Folder, &FilePath) -> io::Result<T> + Send + 'static,
    ) -> Result<T, Reply> {
        self.needs(Rights::may_change)?;
        self.in_folder(named, work).await
    }

    pub async fn change_directory(&mut self, named: &[u8]) -> Answered {
        self.look_up(named, Folder::enter).await?;
        self.directory = self.directory.join(named);
        reply(Code::FILE_ACTION_OKAY, "OK")
    }

    pub async fn retrieve(&mut self, named: &[u8]) -> Answered {
        let offset = mem::take(&mut self.offset);
        self.needs(Rights::may_read)?;
        self.data_connection()?;
        let (file, facts) = self.look_up(named, Folder::read).await?;
        let (offset, representation) = (self.start(offset, size(&facts))?, self.representation);
        let size = size(&facts) - offset;
        let opening = opening(format!("Opening the data connection ({size} bytes)"));
        Ok(Answer::Transfer(opening, Work::Send { file, offset, size, representation }))
    }

    /// STOR after REST goes on with an upload that broke off.
    pub async fn store(&mut self, named: &[u8]) -> Answered {
        let offset = mem::take(&mut self.offset);
        self.needs(Rights::may_add)?;
        self.data_connection()?;
        let (target, size) = self.target(named, offset, New::Written).await?;
        let start = Start::Offset(self.start(offset, size)?);
        self.receive(target, start, opening("Opening the data connection"))
    }

    /// APPE after REST is only taken where both mean the same.
    pub async fn append(&mut self, named: &[u8]) -> Answered {
        let offset = mem::take(&mut self.offset);
        self.needs(Rights::may_add)?;
        self.data_connection()?;
        let (target, size) = self.target(named, offset, New::Appended).await?;
        if offset > 0 && offset != size {
            return Err(invalid_restart());
        }
        self.receive(target, Start::End, opening("Opening the data connection"))
    }

    /// The reply names the file (RFC 1123, section 4.1.2.9).
    pub async fn store_unique(&mut self) -> Answered {
        self.offset = 0;
        self.needs(Rights::may_add)?;
        self.data_connection()?;
        let path = self.in_folder(b"", Folder::choose).await?;
        let text = [b"FILE: ", path.name().unwrap_or_default()].concat();
        let cut = self.server.settings.cut_uploads;
        let target = Target::Absent(self.folder.clone(), path, New::Unique, cut);
        self.receive(target, Start::Offset(0), Reply::of_bytes(Code::FILE_STATUS_OKAY, text))
    }

    /// The answer of a file that is received.
    fn receive(&self, target: Target, start: Start, opening: Reply) -> Answered {
        let work = Work::Receive { target, start, representation: self.representation };
        Ok(Answer::Transfer(opening, work))
    }

    pub async fn list(&mut self, named: &[u8], form: Form) -> Answered {
        let needs_directory = matches!(form, Form::Facts(_));
        if !self.rights.may_read() {
            let denied = Errno::ACCESS.into();
            return Err(listing_fault(needs_directory, &denied));
        }
        self.data_connection()?;
        let (directory, named, rights) = (self.directory.clone(), named.to_vec(), self.rights);
        let folder = self.folder.clone();
        let listing = move || Listing::new(folder, (&directory, &named), form, rights);
        let listing = blocking(listing).await;
        let listing = listing.map_err(|error| listing_fault(needs_directory, &error))?;
        if needs_directory && !listing.is_of_directory() {
            return refuse(Code::PARAMETER_SYNTAX_ERROR, "Not a directory");
        }
        Ok(Answer::Transfer(opening("Here comes the listing"), Work::List(Box::new(listing))))
    }

    /// STAT of a path: a listing as that of LIST, in the reply.
    pub async fn status_of(&mut self, named: &[u8]) -> Answered {
        self.needs(Rights::may_read)?;
        let (directory, rights) = (self.directory.clone(), self.rights);
        let (folder, named) = (self.folder.clone(), named.to_vec());
        let listed = blocking(move || {
            let mut listing = Listing::new(folder, (&directory, &named), Form::Long, rights)?;
            let mut text = Vec::new();
            listing.next_part(&mut text)?;
            Ok((listing.is_of_directory(), text))
        });
        let listed = listed.await.map_err(|error| replies::of_listing_error(&error));
        let (is_of_directory, text) = listed?;
        let code = if is_of_directory { Code::DIRECTORY_STATUS } else { Code::FILE_STATUS };
        let mut shown = b"Status:\r\n".to_vec();
        for line in text.split_inclusive(|byte| *byte == b'\n') {
            shown.push(b' ');
            shown.extend_from_slice(line);
        }
        shown.extend_from_slice(b"End");
        Ok(Answer::Reply(Reply::of_bytes(code, shown)))
    }

    pub async fn show_facts(&mut self, named: &[u8]) -> Answered {
        self.needs(Rights::may_read)?;
        let name = with_nul(&self.directory.join(named).bytes());
        let facts = self.look_up(named, Folder::facts).await?;
        let shown = fact_list(&self.facts, &facts, self.rights);
        let lines = [b"Facts:".to_vec(), [b" ", shown.as_bytes(), &name].concat(), b"End".to_vec()];
        Ok(Answer::Reply(Reply::with_lines(Code::FILE_ACTION_OKAY, lines)))
    }

    /// In TYPE A a file has another size, which isn't known before it is sent.
    pub async fn size(&mut self, named: &[u8]) -> Answered {
        self.needs(Rights::may_read)?;
        if self.representation == Representation::Ascii {
            return refuse(Code::FILE_ERROR, "Only in TYPE I");
        }
        let facts = self.look_up(named, Folder::facts).await?;
        if !is_type(&facts, FileType::RegularFile) {
            return refuse(Code::FILE_ERROR, "Not a regular file");
        }
        reply(Code::FILE_STATUS, size(&facts).to_string())
    }

    pub async fn modified(&mut self, named: &[u8]) -> Answered {
        self.needs(Rights::may_read)?;
        let facts = self.look_up(named, Folder::facts).await?;
        match time_value(&facts) {
            Some(time) => reply(Code::FILE_STATUS, time),
            None => refuse(Code::FILE_ERROR, "Its time can't be shown"),
        }
    }

    /// MFMT: a time and a file or a directory.
    pub async fn set_modified(&mut self, line: &OwnedLine) -> Answered {
        let words = parameter(line)?;
        let (time, named) = first_word(&words);
        let time = std::str::from_utf8(time).ok().and_then(parsed_time);
        let Some(modified) = time.filter(|_| !named.is_empty()) else {
            return refuse(Code::PARAMETER_SYNTAX_ERROR, "No time, or no file");
        };
        let seconds = modified.assume_utc().unix_timestamp();
        let facts = self.change(named, move |folder, path| folder.set_modified(path, seconds));
        let time = time_value(&facts.await?).unwrap_or_default();
        let text = [b"Modify=", time.as_bytes(), b"; ", &with_nul(named)].concat();
        Ok(Answer::Reply(Reply::of_bytes(Code::FILE_STATUS, text)))
    }

    /// SITE CHMOD: a mode in octal digits and a file or a directory.
    pub async fn set_mode(&mut self, line: &OwnedLine) -> Answered {
        let words = subcommand_parameter(line)?;
        let (mode, named) = first_word(&words);
        let Some(mode) = parsed_mode(mode).filter(|_| !named.is_empty()) else {
            return refuse(Code::PARAMETER_SYNTAX_ERROR, "No mode, or no file");
        };
        self.change(named, move |folder, path| folder.set_mode(path, mode)).await?;
        reply(Code::COMMAND_OKAY, "OK")
    }

    pub async fn delete(&mut self, named: &[u8]) -> Answered {
        self.change(named, Folder::remove_file).await?;
        reply(Code::FILE_ACTION_OKAY, "Deleted")
    }

    pub async fn remove_directory(&mut self, named: &[u8]) -> Answered {
        self.change(named, Folder::remove_directory).await?;
        reply(Code::FILE_ACTION_OKAY, "Removed")
    }

    pub async fn make_directory(&mut self, named: &[u8]) -> Answered {
        self.needs(Rights::may_add)?;
        self.in_folder(named, Folder::make_directory).await?;
        directory(&self.directory.join(named))
    }

    pub async fn rename_from(&mut self, named: &[u8]) -> Answered {
        self.change(named, Folder::has_entry).await?;
        self.renamed = Some(self.directory.join(named));
        reply(Code::FILE_ACTION_PENDING, "RNTO has the new name")
    }

    pub async fn rename_to(&mut self, renamed: Option<FilePath>, line: &OwnedLine) -> Answered {
        let Some(from) = renamed else {
            return refuse(Code::BAD_COMMAND_SEQUENCE, "RNFR comes first");
        };
        self.change(&parameter(line)?, move |folder, to| folder.rename(&from, to)).await?;
        reply(Code::FILE_ACTION_OKAY, "Renamed")
    }
}

/// A mode in octal digits.
fn parsed_mode(digits: &[u8]) -> Option<u32> {
    // from_str_radix would also take a plus sign
    let digits = std::str::from_utf8(digits).ok().filter(|it| !it.starts_with('+'))?;
    u32::from_str_radix(digits, 8).ok().filter(|mode| *mode <= 0o777)
}

/// The reply to a listing that a fault ends.
fn listing_fault(needs_directory: bool, error: &io::Error) -> Reply {
    if needs_directory {
        replies::of_error(error)
    } else {
        replies::of_listing_error(error)
    }
}

fn opening(text: impl Into<Cow<'static, str>>) -> Reply {
    Reply::new(Code::FILE_STATUS_OKAY, text)
}

/// The reply to an offset that the file doesn't have (RFC 3659, section 5.4).
fn invalid_restart() -> Reply {
    let code = Code::new(554).unwrap_or(Code::FILE_ERROR);
    Reply::new(code, "The offset is not in the file")
}
