//! What turns connections to TLS, on the server's end.
use crate::certificate::{tls_config, Unproved};
use crate::tls_sessions::{Connection, OfControl, OfData, Sessions};
use std::io::{self, ErrorKind};
use std::net::IpAddr;
use std::path::Path;
use std::sync::Arc;
use tokio::net::TcpStream;
use tokio_rustls::rustls::server::StoresServerSessions;
use tokio_rustls::rustls::ServerConfig;
use tokio_rustls::server::TlsStream;
use tokio_rustls::TlsAcceptor;

/// Which TLS sessions a data connection may have.
#[derive(Clone, Copy, Debug, PartialEq, Eq)]
pub enum DataSession {
    /// Only that of its control connection, or of another one of the same user and address. It is
    /// resumed, for which a client has to have its secrets. This is TLS 1.2: clients of OpenSSL resume
    /// a session of TLS 1.3 once for each ticket, and the only ticket comes on the control connection. A
    /// client that uploads never reads one of a data connection: it closes over unread bytes, which
    /// resets the connection, and the end of the file may be lost.
    Resumed,
    /// A new one too.
    Any,
}

/// What accepts TLS on control connections and on their data connections.
#[derive(Clone)]
pub struct TlsAcceptors {
    control: Arc<ServerConfig>,
    data: Arc<ServerConfig>,
    /// Where data connections have to resume a session: what proves nothing, and the sessions.
    resumed: Option<(Arc<Unproved>, Arc<Sessions>)>,
}

/// The same for a control connection and its data connections.
pub struct OfConnection {
    /// On the control connection.
    pub control: TlsAcceptor,
    /// On its data connections.
    pub data: TlsAcceptor,
    /// Whose sessions are resumed, where they have to be. They end with this.
    pub connection: Option<Arc<Connection>>,
}

impl OfConnection {
    /// Turns a data connection to TLS.
    ///
    /// # Errors
    ///
    /// Those of the handshake, and where it has to resume a session and has none of the same user.
    pub async fn accept_data(&self, tcp: TcpStream) -> io::Result<TlsStream<TcpStream>> {
        let stream = self.data.accept(tcp).await?;
        match &self.connection {
            Some(connection) if !connection.is_same_user().await => {
                Err(io::Error::new(ErrorKind::PermissionDenied, "the session is another user's"))
            }
            _ => Ok(stream),
        }
    }
}

impl TlsAcceptors {
    /// With the certificates and the key of two PEM files.
    ///
    /// # Errors
    ///
    /// Where a file can't be read, or has no certificate or no private key; and where the key isn't
    /// that of the first certificate.
    pub fn read(certificates: &Path, key: &Path, kind: DataSession) -> io::Result<TlsAcceptors> {
        let (control, unproved) = tls_config(certificates, key, kind)?;
        let mut data = control.clone();
        data.session_storage = Arc::new(ControlSessions(control.session_storage.clone()));
        let resumed = kind == DataSession::Resumed;
        Ok(TlsAcceptors {
            control: Arc::new(control),
            data: Arc::new(data),
            resumed: resumed.then(|| (Arc::new(unproved), Arc::default())),
        })
    }

    /// For a new control connection of a client's address.
    pub fn of_connection(&self, client: IpAddr) -> OfConnection {
        let Some((unproved, sessions)) = &self.resumed else {
            let (control, data) = (self.control.clone().into(), self.data.clone().into());
            return OfConnection { control, data, connection: None };
        };
        let connection = Arc::new(Connection::new(sessions.clone(), client));
        let (mut control, mut data) = ((*self.control).clone(), (*self.data).clone());
        let of_control = Arc::new(OfControl(Arc::downgrade(&connection)));
        control.session_storage = of_control.clone();
        control.ticketer = of_control;
        let of_data = Arc::new(OfData::new(Arc::downgrade(&connection)));
        data.session_storage = of_data.clone();
        data.ticketer = of_data;
        data.cert_resolver = unproved.clone();
        OfConnection {
            control: Arc::new(control).into(),
            data: Arc::new(data).into(),
            connection: Some(connection),
        }
    }
}

/// The sessions of control connections, to which none is added. A session may be resumed by each
/// data connection that comes from its control connection, and so isn't used up.
struct ControlSessions(Arc<dyn StoresServerSessions>);

impl StoresServerSessions for ControlSessions {
    fn put(&self, _: Vec<u8>, _: Vec<u8>) -> bool {
        false
    }

    fn get(&self, key: &[u8]) -> Option<Vec<u8>> {
        self.0.get(key)
    }

    fn take(&self, key: &[u8]) -> Option<Vec<u8>> {
        self.0.get(key)
    }

    fn can_cache(&self) -> bool {
        false
    }
}
