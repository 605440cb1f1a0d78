//! What serde writes: what a log may show, and no password. Nothing is read back.
use crate::bytes::{Password, RawBytes};
use crate::client::{ClientReply, To};
use crate::code::ReplyCode;
use crate::command::Command;
use crate::event::{Event, Refusal};
use crate::received::ReceivedReply;
use crate::reply::Reply;
use serde::ser::{Serialize, SerializeStruct, Serializer};
use std::borrow::Cow;

/// As a text: what a log shows of it, without passwords and accounts.
impl Serialize for Command<'_> {
    fn serialize<S: Serializer>(&self, serializer: S) -> Result<S::Ok, S::Error> {
        serializer.collect_str(self)
    }
}

/// As its text.
impl Serialize for Refusal {
    fn serialize<S: Serializer>(&self, serializer: S) -> Result<S::Ok, S::Error> {
        serializer.collect_str(self)
    }
}

/// As asterisks.
impl Serialize for Password<'_> {
    fn serialize<S: Serializer>(&self, serializer: S) -> Result<S::Ok, S::Error> {
        serializer.collect_str(self)
    }
}

/// As a text, with U+FFFD for each ill-formed part. Nothing is hidden: not the account of ACCT, nor
/// a password that was sent as a name.
impl Serialize for RawBytes<'_> {
    fn serialize<S: Serializer>(&self, serializer: S) -> Result<S::Ok, S::Error> {
        serializer.serialize_str(&String::from_utf8_lossy(self))
    }
}

/// As its number.
impl Serialize for ReplyCode {
    fn serialize<S: Serializer>(&self, serializer: S) -> Result<S::Ok, S::Error> {
        serializer.serialize_u16(self.get())
    }
}

/// As the variant `command` or `refused`, with its text.
impl Serialize for Event<'_> {
    fn serialize<S: Serializer>(&self, serializer: S) -> Result<S::Ok, S::Error> {
        match self {
            Event::Command(it) => serializer.serialize_newtype_variant("Event", 0, "command", it),
            Event::Refused(it) => serializer.serialize_newtype_variant("Event", 1, "refused", it),
        }
    }
}

/// As a struct of `code` and `lines`, which are texts with U+FFFD for each ill-formed part.
impl Serialize for Reply {
    fn serialize<S: Serializer>(&self, serializer: S) -> Result<S::Ok, S::Error> {
        serialize_reply(serializer, self.code().get(), self.lines())
    }
}

/// As [`Reply`]. A server may repeat in the lines what it was sent.
impl Serialize for ReceivedReply<'_> {
    fn serialize<S: Serializer>(&self, serializer: S) -> Result<S::Ok, S::Error> {
        serialize_reply(serializer, self.code(), self.lines())
    }
}

fn serialize_reply<'a, S: Serializer>(
    serializer: S,
    code: u16,
    lines: impl Iterator<Item = &'a [u8]>,
) -> Result<S::Ok, S::Error> {
    let lines: Vec<Cow<'_, str>> = lines.map(String::from_utf8_lossy).collect();
    let mut reply = serializer.serialize_struct("Reply", 2)?;
    reply.serialize_field("code", &code)?;
    reply.serialize_field("lines", &lines)?;
    reply.end()
}

/// As the variant `greeting`, `nothing`, or `command` with its place.
impl Serialize for To {
    fn serialize<S: Serializer>(&self, serializer: S) -> Result<S::Ok, S::Error> {
        match self {
            To::Greeting => serializer.serialize_unit_variant("To", 0, "greeting"),
            To::Command(place) => serializer.serialize_newtype_variant("To", 1, "command", place),
            To::Nothing => serializer.serialize_unit_variant("To", 2, "nothing"),
        }
    }
}

/// As a struct of `to` and `reply`.
impl Serialize for ClientReply<'_> {
    fn serialize<S: Serializer>(&self, serializer: S) -> Result<S::Ok, S::Error> {
        let mut taken = serializer.serialize_struct("ClientReply", 2)?;
        taken.serialize_field("to", &self.to)?;
        taken.serialize_field("reply", &self.reply)?;
        taken.end()
    }
}
