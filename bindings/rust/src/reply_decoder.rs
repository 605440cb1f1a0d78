use crate::error::Error;
use crate::ffi;
use crate::received::ReceivedReply;
use std::fmt::{self, Debug, Formatter};

/// The most bytes of a reply, where no other limit is named.
pub const REPLY_LIMIT: usize = 65_536;

/// Takes the replies that a client has received, one after the other.
///
/// No byte is searched again with each piece that comes.
///
/// ```
/// use unftp_control::ReplyDecoder;
///
/// let mut decoder = ReplyDecoder::new();
/// decoder.push(b"220 Ready\r\n331 Pass")?;
/// assert_eq!(decoder.next_reply()?.map(|reply| reply.code()), Some(220));
/// assert_eq!(decoder.next_reply()?, None);
/// assert_eq!(decoder.bytes(), b"331 Pass");
/// # Ok::<(), unftp_control::Error>(())
/// ```
#[derive(Clone)]
pub struct ReplyDecoder {
    received: Vec<u8>,
    /// How many of the received bytes are used up. `push` drops them.
    used: usize,
    search: Search,
}

impl ReplyDecoder {
    /// No bytes, of a connection whose replies may have [`REPLY_LIMIT`] bytes.
    pub fn new() -> ReplyDecoder {
        ReplyDecoder::with_limit(REPLY_LIMIT)
    }

    /// The same with another limit; 0 is none.
    pub fn with_limit(limit: usize) -> ReplyDecoder {
        ReplyDecoder { received: Vec::new(), used: 0, search: Search::new(limit) }
    }

    /// Appends bytes that were received.
    ///
    /// # Errors
    ///
    /// [`Error::OutOfMemory`]; the pending bytes are then as before.
    pub fn push(&mut self, bytes: &[u8]) -> Result<(), Error> {
        self.received.drain(..self.used);
        self.used = 0;
        self.received.try_reserve(bytes.len()).map_err(|_| Error::OutOfMemory)?;
        self.received.extend_from_slice(bytes);
        Ok(())
    }

    /// Takes the first reply of the pending bytes; `None` where it is not complete.
    ///
    /// # Errors
    ///
    /// [`Error::ReplyTooLong`] where as many bytes as the limit are pending and are only a part of
    /// a reply, and else [`Error::MalformedReply`] where the first line opens none. Which one it is
    /// doesn't depend on the pieces. The bytes are still pending, and no reply comes any more.
    pub fn next_reply(&mut self) -> Result<Option<ReceivedReply<'_>>, Error> {
        let reply = self.search.take(&self.received[self.used..])?;
        if let Some(reply) = &reply {
            self.used += reply.bytes().len();
        }
        Ok(reply)
    }

    /// The reply that [`next_reply`](ReplyDecoder::next_reply) takes, which stays pending.
    pub(crate) fn first_reply(&mut self) -> Result<Option<ReceivedReply<'_>>, Error> {
        self.search.find(&self.received[self.used..])
    }

    /// The bytes that are pending.
    pub fn bytes(&self) -> &[u8] {
        &self.received[self.used..]
    }

    /// Drops the pending bytes: what came in clear text is not to be read as if it had come under
    /// TLS.
    pub fn clear(&mut self) {
        self.received.clear();
        self.used = 0;
        self.search.restart();
    }
}

impl Default for ReplyDecoder {
    fn default() -> ReplyDecoder {
        ReplyDecoder::new()
    }
}

impl Debug for ReplyDecoder {
    fn fmt(&self, f: &mut Formatter<'_>) -> fmt::Result {
        f.debug_struct("ReplyDecoder").field("len", &self.bytes().len()).finish_non_exhaustive()
    }
}

/// The search for the first reply of the pending bytes, which its owner keeps.
#[derive(Clone, Debug)]
pub(crate) struct Search {
    place: ffi::ReplySearch,
    /// The code of the first reply and how many bytes it has, once it is complete.
    found: Option<(u16, usize)>,
}

impl Search {
    /// A limit of 0 is none.
    pub(crate) fn new(limit: usize) -> Search {
        Search { place: ffi::ReplySearch { limit, ..Default::default() }, found: None }
    }

    /// The first reply of the pending bytes. Its owner then drops its bytes.
    pub(crate) fn take<'a>(
        &mut self,
        pending: &'a [u8],
    ) -> Result<Option<ReceivedReply<'a>>, Error> {
        let reply = self.find(pending)?;
        if reply.is_some() {
            self.restart();
        }
        Ok(reply)
    }

    /// The first reply of the pending bytes. Until it is taken, no byte of it is searched again.
    pub(crate) fn find<'a>(
        &mut self,
        pending: &'a [u8],
    ) -> Result<Option<ReceivedReply<'a>>, Error> {
        if self.found.is_none() {
            self.found = self.search(pending)?;
        }
        Ok(self.found.map(|(code, used)| ReceivedReply::borrowed(code, &pending[..used])))
    }

    fn search(&mut self, pending: &[u8]) -> Result<Option<(u16, usize)>, Error> {
        if self.place.offset > pending.len() {
            // the owner has dropped bytes
            self.restart();
        }
        let (status, reply) = ffi::next_reply(&mut self.place, pending);
        match (status, u16::try_from(reply.code)) {
            (ffi::DONE, Ok(code)) => Ok(Some((code, reply.used))),
            (ffi::MORE, _) => Ok(None),
            (ffi::MALFORMED, _) => Err(Error::MalformedReply),
            (ffi::REPLY_TOO_LONG, _) => Err(Error::ReplyTooLong),
            (status, _) => unreachable!("unftp_next_reply returns {status} for no such search"),
        }
    }

    fn restart(&mut self) {
        *self = Search::new(self.place.limit);
    }
}

#[cfg(test)]
mod tests {
    use super::*;

    #[test]
    fn no_byte_is_searched_again() -> Result<(), Error> {
        let mut search = Search::new(0);
        let mut pending = Vec::new();
        for (count, byte) in b"211-a\r\n212 b\r\n211-\r\n211 ".iter().enumerate() {
            pending.push(*byte);
            assert_eq!(search.find(&pending)?, None);
            assert_eq!(search.place.offset, count + 1);
            assert_eq!(
                search.place.line,
                [0, 7, 14, 20][pending.split(|byte| *byte == b'\n').count() - 1]
            );
        }
        pending.extend_from_slice(b"\r\n220 Ready\r\n");
        let first = search.find(&pending)?.map(ReceivedReply::into_owned);
        assert_eq!(first.as_ref().map(|reply| reply.bytes().len()), Some(pending.len() - 11));
        let found = search.found;
        assert_eq!(search.find(&pending)?, first);
        assert_eq!(search.found, found);
        assert_eq!(search.take(&pending)?, first);
        assert_eq!((search.place.line, search.place.offset, search.found), (0, 0, None));
        Ok(())
    }
}
