//! Exchanges: what a client sent, and what it was answered.
use serde::{Serialize, Serializer};
use std::borrow::Cow;
use std::net::SocketAddr;
use std::time::{Duration, Instant};
use time::format_description::well_known::Rfc3339;
use time::OffsetDateTime;
use unftp_control::{log_exchange, Error, LogLine, ReceivedReply, Reply};

/// How many preliminary replies to a line are kept. A server may send any number of them.
const MOST_PRELIMINARY: usize = 16;

/// A reply that a client was sent.
#[derive(Clone, Debug, Serialize)]
#[serde(untagged)]
pub enum Answer {
    /// One of the server.
    Received(ReceivedReply<'static>),
    /// One of the relay.
    Own(Reply),
    /// The code of one whose text is not shown.
    Code {
        /// It.
        code: u16,
    },
}

impl Answer {
    /// Its bytes; of one whose text is not shown, those of its code.
    fn bytes(&self) -> Result<Cow<'_, [u8]>, Error> {
        Ok(match self {
            Answer::Received(reply) => Cow::Borrowed(reply.bytes()),
            Answer::Own(reply) => Cow::Owned(reply.to_bytes()?),
            Answer::Code { code } => Cow::Owned(format!("{code:03}\r\n").into_bytes()),
        })
    }
}

/// What a client sent, and what it was answered: in JSON, an object with these fields.
#[derive(Clone, Debug, Serialize)]
pub struct Exchange {
    /// When the line came (RFC 3339).
    #[serde(serialize_with = "rfc3339")]
    came: OffsetDateTime,
    /// The number of the session.
    session: u64,
    /// The address of the client.
    client: SocketAddr,
    /// The line as `unftp_control::log_line` shows it, without passwords. It is null where a reply
    /// is to no line, as the greeting.
    line: Option<String>,
    /// Each has a `code`, and also `lines`, unless a part of the client's line is hidden, or of one
    /// that was owed its reply at the same time: the server may repeat it.
    replies: Vec<Answer>,
    /// How many preliminary replies came after those that `replies` has.
    #[serde(skip_serializing_if = "is_zero")]
    omitted: u64,
    /// Whether the session ended before the final reply. The server may have done what was asked.
    #[serde(rename = "unanswered", skip_serializing_if = "is_false")]
    pub(super) is_unanswered: bool,
    /// How long it took to the last reply.
    #[serde(rename = "milliseconds", serialize_with = "milliseconds")]
    took: Duration,
    #[serde(skip)]
    began: Instant,
    /// A part of the client's line is hidden, or of one that is owed its reply at the same time.
    #[serde(skip)]
    is_hidden: bool,
}

impl Exchange {
    /// One that begins now, with a line as the log shows it, or with none. Where that hides a part
    /// of the line, the log has no texts of the server's replies either.
    pub fn new(session: u64, client: SocketAddr, line: Option<LogLine>) -> Exchange {
        let is_hidden = line.as_ref().is_some_and(|line| line.hides_part);
        Exchange {
            came: OffsetDateTime::now_utc(),
            session,
            client,
            line: line.map(|line| line.text),
            replies: Vec::new(),
            omitted: 0,
            is_unanswered: false,
            took: Duration::ZERO,
            began: Instant::now(),
            is_hidden,
        }
    }

    /// Whether the text of the server's replies is hidden: they may repeat the line.
    pub fn is_hidden(&self) -> bool {
        self.is_hidden
    }

    /// Hides the text of the server's replies that come from now on.
    pub fn hide(&mut self) {
        self.is_hidden = true;
    }

    /// Notes a reply. Of preliminary ones only the first few are kept, and the others counted.
    pub fn note(&mut self, reply: Answer) {
        self.took = self.began.elapsed();
        let is_preliminary = matches!(&reply, Answer::Received(reply) if reply.is_preliminary());
        if is_preliminary && self.replies.len() >= MOST_PRELIMINARY {
            self.omitted += 1;
            return;
        }
        self.replies.push(match reply {
            Answer::Received(reply) if self.is_hidden => Answer::Code { code: reply.code() },
            reply => reply,
        });
    }

    /// Logs it.
    pub fn log(&self) {
        let mut notes = Vec::new();
        if self.omitted > 0 {
            notes.push(format!("{} preliminary replies omitted", self.omitted));
        }
        if self.is_unanswered {
            notes.push("unanswered".to_string());
        }
        notes.push(format!("{} ms", self.took.as_millis()));
        let shown = self.shown().unwrap_or_else(|error| format!("an exchange: {error}"));
        tracing::info!("{shown} ({})", notes.join(", "));
    }

    /// The line with its replies, in printable ASCII.
    fn shown(&self) -> Result<String, Error> {
        let mut replies = Vec::new();
        for reply in &self.replies {
            replies.extend_from_slice(&reply.bytes()?);
        }
        log_exchange(self.line.as_deref(), &replies)
    }
}

fn is_false(value: &bool) -> bool {
    !value
}

fn is_zero(value: &u64) -> bool {
    *value == 0
}

fn rfc3339<S: Serializer>(came: &OffsetDateTime, serializer: S) -> Result<S::Ok, S::Error> {
    serializer.serialize_str(&came.format(&Rfc3339).map_err(serde::ser::Error::custom)?)
}

fn milliseconds<S: Serializer>(took: &Duration, serializer: S) -> Result<S::Ok, S::Error> {
    serializer.serialize_u128(took.as_millis())
}
