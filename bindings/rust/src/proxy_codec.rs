use crate::received::ReceivedReply;
use crate::reply::Reply;
use bytes::BytesMut;
use tokio_util::codec::{Decoder, Encoder};

/// What a proxy sends its client, by [`ProxyCodec`]. A reply of either kind becomes one by `into`.
#[must_use]
#[derive(Clone, Debug, PartialEq, Eq)]
pub enum ProxyReply<'a> {
    /// A reply of the server. Its bytes are sent as they came, also those that are not UTF-8 and
    /// those of a code that no [`ReplyCode`](crate::ReplyCode) has, as 631 (RFC 2228, section 5.2).
    Received(ReceivedReply<'a>),
    /// A reply of the proxy's own.
    Own(Reply),
}

impl<'a> From<ReceivedReply<'a>> for ProxyReply<'a> {
    fn from(reply: ReceivedReply<'a>) -> ProxyReply<'a> {
        ProxyReply::Received(reply)
    }
}

impl From<Reply> for ProxyReply<'_> {
    fn from(reply: Reply) -> Self {
        ProxyReply::Own(reply)
    }
}

/// The codec of a proxy toward its client: it reads as the codec in it, which is
/// [`FtpLineCodec`](crate::FtpLineCodec) or [`FtpCodec`](crate::FtpCodec), and sends each
/// [`ProxyReply`].
///
/// As it has one encoder, `flush` and `close` of a sink need no type. With a second one of its own
/// [`FtpCodec`](crate::FtpCodec) would ask for that type in each server.
///
/// ```
/// use bytes::BytesMut;
/// use tokio_util::codec::{Decoder, Encoder};
/// use unftp_control::{FtpClientCodec, FtpLineCodec, ProxyCodec, Reply, ReplyCode};
///
/// let (mut server, mut client) = (FtpClientCodec::new(), ProxyCodec(FtpLineCodec::new()));
/// let mut input = BytesMut::from("220-caf\u{e9}\r\n 7 users\r\n220 \r\n");
/// let mut output = BytesMut::new();
/// let taken = server.decode(&mut input)?.expect("a reply");
/// client.encode(taken.reply.into(), &mut output)?;
/// client.encode(Reply::new(ReplyCode::SERVICE_NOT_AVAILABLE, "Stopping").into(), &mut output)?;
/// assert_eq!(output, "220-caf\u{e9}\r\n 7 users\r\n220 \r\n421 Stopping\r\n");
/// # Ok::<(), unftp_control::CodecError>(())
/// ```
#[derive(Clone, Debug, Default)]
pub struct ProxyCodec<C>(pub C);

impl<C: Decoder> Decoder for ProxyCodec<C> {
    type Item = C::Item;
    type Error = C::Error;

    fn decode(&mut self, src: &mut BytesMut) -> Result<Option<C::Item>, C::Error> {
        self.0.decode(src)
    }

    fn decode_eof(&mut self, src: &mut BytesMut) -> Result<Option<C::Item>, C::Error> {
        self.0.decode_eof(src)
    }
}

impl<C: Encoder<Reply>> Encoder<ProxyReply<'_>> for ProxyCodec<C> {
    type Error = C::Error;

    fn encode(&mut self, reply: ProxyReply<'_>, dst: &mut BytesMut) -> Result<(), C::Error> {
        match reply {
            ProxyReply::Received(reply) => dst.extend_from_slice(reply.bytes()),
            ProxyReply::Own(reply) => self.0.encode(reply, dst)?,
        }
        Ok(())
    }
}
