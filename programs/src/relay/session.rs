//! A client's session: both control connections.
use super::conversation::{Addresses, Conversation, End, MOST_PENDING};
use super::server::{Failure, Server};
use super::Relay;
use crate::listening::{Connected, Stop};
use crate::stream::Stream;
use crate::tls::OfConnection;
use bytes::BytesMut;
use std::future::{pending, poll_fn, Future};
use std::io;
use std::net::{IpAddr, SocketAddr};
use std::pin::{pin, Pin};
use std::sync::Arc;
use std::task::Poll;
use std::time::Duration;
use tokio::io::{split, AsyncReadExt, AsyncWrite, AsyncWriteExt, ReadHalf, WriteHalf};
use tokio::time::{sleep_until, timeout, Instant};
use unftp_control::{unmapped, Reply, ReplyCode as Code};

/// How long a TLS handshake may take.
const HANDSHAKE: Duration = Duration::from_secs(20);
/// How long the client may take to read the last reply and to close, and a transfer to end where
/// the program ends.
const LINGER: Duration = Duration::from_secs(5);
/// How many bytes are read at a time.
const PIECE: usize = 4096;
/// IAC, IP and the IAC of a Synch (RFC 854).
const INTERRUPT: &[u8] = b"\xff\xf4\xff";
/// The DM of a Synch.
const DATA_MARK: u8 = 0xf2;

/// A session: a client's control connection, and the one to the server for it.
pub struct Session {
    conversation: Conversation,
    server: Stream,
    /// Nothing of what was written to the server waits in a buffer of TLS.
    is_server_flushed: bool,
    stop: Stop,
    is_stopping: bool,
    /// The client has sent its end.
    is_client_gone: bool,
    /// The server was sent that end.
    is_end_sent: bool,
    /// Nothing of what was written to the client waits in a buffer of TLS.
    is_flushed: bool,
    /// When it ends, unless a side sends something before.
    deadline: Instant,
}

/// Serves a client that has connected.
pub async fn serve(relay: Arc<Relay>, number: u64, connected: Connected) -> io::Result<()> {
    let Connected { tcp, peer, is_implicit, is_refused, stop } = connected;
    let to_client = tcp.local_addr()?;
    let tls = relay.tls.as_ref().map(|it| Arc::new(it.of_connection(unmapped(peer.ip()))));
    let mut client = Stream::control(tcp)?;
    if is_implicit {
        client = accept_tls(client, tls.as_deref()).await?;
    }
    if is_refused {
        return refuse(client, "Too many connections").await;
    }
    let Server { stream: server, tls: to_server_tls, greeting } =
        match Server::connect(&relay.server, relay.server_tls.as_ref()).await {
            Ok(server) => server,
            Err(Failure::Unreachable(error)) => {
                tracing::warn!(%error, server = relay.server, "can't connect");
                return refuse(client, "The server can't be reached").await;
            }
            Err(Failure::Unprotected(error)) => {
                tracing::warn!(%error, server = relay.server, "can't connect under TLS");
                return refuse(client, "The server can't be reached under TLS").await;
            }
        };
    let addresses = Addresses {
        client: of_one_protocol(peer),
        to_client: of_one_protocol(to_client),
        server: of_one_protocol(server.tcp().peer_addr()?),
        to_server: of_one_protocol(server.tcp().local_addr()?),
    };
    let deadline = Instant::now() + relay.limits.idle;
    let mut conversation = Conversation::new(relay, number, addresses, tls, to_server_tls);
    if is_implicit {
        conversation.begin_privately();
    }
    let mut session = Session {
        conversation,
        server,
        is_server_flushed: true,
        stop,
        is_stopping: false,
        is_client_gone: false,
        is_end_sent: false,
        is_flushed: true,
        deadline,
    };
    let begun = session.conversation.receive_from_server(&greeting);
    session.run(client, begun.err()).await
}

/// Turns a client's control connection to TLS.
async fn accept_tls(client: Stream, tls: Option<&OfConnection>) -> io::Result<Stream> {
    let tls = tls.ok_or(io::ErrorKind::Unsupported)?;
    client.accept_tls(&tls.control, HANDSHAKE).await.map_err(|error| {
        tracing::warn!(error = &*error.to_string(), "TLS handshake failed");
        error
    })
}

/// Tells a client by a 421 that it has no session.
async fn refuse(mut client: Stream, text: &'static str) -> io::Result<()> {
    let reply =
        Reply::new(Code::SERVICE_NOT_AVAILABLE, text).to_bytes().map_err(io::Error::other)?;
    timeout(LINGER, client.write_all(&reply)).await??;
    client.close(LINGER).await;
    Ok(())
}

/// The address of IPv4 where it is one that an address of IPv6 maps.
fn of_one_protocol(address: SocketAddr) -> SocketAddr {
    match unmapped(address.ip()) {
        IpAddr::V4(v4) => SocketAddr::new(v4.into(), address.port()),
        IpAddr::V6(_) => address,
    }
}

/// Writes a part of what waits. Where nothing does, TLS is to send what it still has.
async fn write(
    writer: &mut WriteHalf<Stream>,
    waiting: &mut BytesMut,
    is_flushed: &mut bool,
) -> io::Result<()> {
    if waiting.is_empty() {
        writer.flush().await?;
        *is_flushed = true;
    } else {
        *is_flushed = false;
        writer.write_buf(waiting).await?;
    }
    Ok(())
}

/// Waits for a moment, or for ever.
async fn until(moment: Option<Instant>) {
    match moment {
        Some(moment) => sleep_until(moment).await,
        None => pending().await,
    }
}

/// What was done with the control connection to the server.
enum Moved {
    /// So many bytes were sent.
    Sent(io::Result<usize>),
    /// So many were received.
    Received(io::Result<usize>),
}

/// Sends the server a part of what waits, or receives what it has sent, where there is a place for it.
async fn exchange(
    server: &mut Stream,
    output: &[u8],
    is_flushed: &mut bool,
    mut input: Option<&mut BytesMut>,
) -> Moved {
    poll_fn(|cx| {
        if !output.is_empty() {
            if let Poll::Ready(sent) = Pin::new(&mut *server).poll_write(cx, output) {
                *is_flushed = false;
                return Poll::Ready(Moved::Sent(sent));
            }
        } else if !*is_flushed {
            if let Poll::Ready(flushed) = Pin::new(&mut *server).poll_flush(cx) {
                *is_flushed = true;
                return Poll::Ready(Moved::Sent(flushed.map(|()| 0)));
            }
        }
        let Some(input) = input.as_deref_mut() else { return Poll::Pending };
        pin!(server.read_buf(input)).poll(cx).map(Moved::Received)
    })
    .await
}

impl Session {
    /// Relays between both sides, until one of them ends that, or where that has an end already.
    async fn run(mut self, mut client: Stream, mut ended: Option<End>) -> io::Result<()> {
        let end = loop {
            if let Some(end) = ended {
                break end;
            }
            let (mut reader, mut writer) = split(client);
            ended = self.talk(&mut reader, &mut writer).await.err();
            client = reader.unsplit(writer);
            if ended.is_none() {
                client = accept_tls(client, self.conversation.tls.as_deref()).await?;
                self.conversation.begin_tls();
            }
        };
        let ended = self.conversation.end(end).map_err(io::Error::other);
        let _ = self.record().await;
        ended?;
        let mut last = self.conversation.to_client;
        drop(self.server);
        let sent = async {
            client.write_all_buf(&mut last).await?;
            client.flush().await
        };
        timeout(LINGER, sent).await??;
        client.close(LINGER).await;
        Ok(())
    }

    /// Relays until TLS is to begin, or the session ends.
    async fn talk(
        &mut self,
        reader: &mut ReadHalf<Stream>,
        writer: &mut WriteHalf<Stream>,
    ) -> Result<(), End> {
        let (mut from_client, mut from_server) = (BytesMut::new(), BytesMut::new());
        while !self.begins_tls() {
            self.conversation.advance()?;
            self.record().await?;
            self.check()?;
            self.postpone();
            self.send_urgent();
            self.pass_end().await;
            let transferred = self.conversation.transferred();
            from_client.reserve(PIECE);
            from_server.reserve(PIECE);
            let has_room = self.conversation.has_room();
            let reads_server = has_room && !self.conversation.is_holding;
            tokio::select! {
                read = reader.read_buf(&mut from_client), if has_room && self.reads_client() => {
                    self.is_client_gone = read? == 0;
                    self.conversation.receive_from_client(&from_client.split())?;
                }
                moved = exchange(
                    &mut self.server,
                    &self.conversation.to_server,
                    &mut self.is_server_flushed,
                    reads_server.then_some(&mut from_server),
                ) => match moved {
                    Moved::Received(Ok(0) | Err(_)) => return Err(self.conversation.server_end()),
                    Moved::Received(Ok(_)) => {
                        self.conversation.receive_from_server(&from_server.split())?;
                    }
                    Moved::Sent(sent) => {
                        // a server that is gone may have said why: that is read
                        let sent = sent.unwrap_or(self.conversation.to_server.len());
                        self.conversation.to_server.drain(..sent);
                    }
                },
                written = write(writer, &mut self.conversation.to_client, &mut self.is_flushed),
                    if !self.conversation.to_client.is_empty() || !self.is_flushed =>
                {
                    written?;
                }
                () = transferred, if self.conversation.is_holding => {
                    self.conversation.release()?;
                }
                () = until(self.conversation.closes_at) => self.conversation.close_transfer(),
                _ = self.stop.changed(), if !self.is_stopping => {
                    self.is_stopping = true;
                    self.deadline = Instant::now() + LINGER;
                }
                () = sleep_until(self.deadline) => self.expire()?,
            }
        }
        Ok(())
    }

    /// Whether the client is to begin TLS: the reply that says so is sent.
    fn begins_tls(&self) -> bool {
        self.conversation.begins_tls && self.conversation.to_client.is_empty() && self.is_flushed
    }

    fn reads_client(&self) -> bool {
        let is_full =
            self.conversation.pending().max(self.conversation.to_server.len()) >= MOST_PENDING;
        !(is_full || self.is_client_gone || self.is_stopping || self.conversation.begins_tls)
    }

    /// Ends the session where nothing is left to be done.
    fn check(&self) -> Result<(), End> {
        match self.conversation.is_at_rest() {
            true if self.is_client_gone => Err(End::Silent),
            true if self.is_stopping => Err(End::Told("Stopping")),
            _ => Ok(()),
        }
    }

    /// Logs the exchanges that are complete.
    async fn record(&mut self) -> Result<(), End> {
        for exchange in self.conversation.exchanges.drain(..) {
            exchange.log();
            if let Some(exchanges) = &self.conversation.relay.exchanges {
                let sent = exchanges.send(exchange).await;
                sent.map_err(|_| End::Told("The record can't be written"))?;
            }
        }
        Ok(())
    }

    /// Begins an ABOR of a transfer by Telnet's Interrupt Process and Synch, with an urgent byte
    /// (RFC 959, section 4.1.3), where it can be sent at once: some servers look at a line within a
    /// transfer only then. A server that doesn't take urgent data in line loses the urgent byte, so
    /// that byte is none of the line's.
    fn send_urgent(&mut self) {
        let is_urgent = std::mem::take(&mut self.conversation.is_urgent);
        // TLS has no urgent data
        let Stream::Clear(tcp) = &self.server else { return };
        let line = &mut self.conversation.to_server;
        if is_urgent && line == b"ABOR\r\n" {
            let socket = socket2::SockRef::from(tcp);
            if let Ok(sent) = socket.send_out_of_band(INTERRUPT) {
                line.splice(..0, INTERRUPT[sent..].iter().chain([&DATA_MARK]).copied());
            }
        }
    }

    /// Sends the server the client's end after the last line. It then closes the data connection
    /// (RFC 959, section 3.2).
    async fn pass_end(&mut self) {
        let is_sent = self.conversation.has_taken_all() && self.conversation.to_server.is_empty();
        if self.is_client_gone && is_sent && !self.is_end_sent {
            self.is_end_sent = true;
            let _ = self.server.shutdown().await;
        }
    }

    /// The session goes on where a line or a reply has come.
    fn postpone(&mut self) {
        if std::mem::take(&mut self.conversation.is_active) && !self.is_stopping {
            self.deadline = Instant::now() + self.conversation.relay.limits.idle;
        }
    }

    /// Ends the session at its deadline, unless a transfer is under way.
    fn expire(&mut self) -> Result<(), End> {
        if self.is_stopping {
            return Err(End::Told("Stopping"));
        }
        if !self.conversation.is_transferring() {
            return Err(End::Told("Idle too long"));
        }
        self.conversation.is_active = true;
        Ok(())
    }
}
