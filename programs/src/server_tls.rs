//! TLS toward a server, whose certificate is checked.
use crate::stream::Stream;
use std::fs::File;
use std::io::{self, BufReader, ErrorKind};
use std::path::Path;
use std::sync::Arc;
use std::time::{Duration, SystemTime};
use tokio::net::TcpStream;
use tokio_rustls::rustls::client::{
    ClientSessionMemoryCache, ServerCertVerified, ServerCertVerifier, StoresClientSessions,
    WebPkiVerifier,
};
use tokio_rustls::rustls::{self, Certificate, ClientConfig, RootCertStore, ServerName};
use tokio_rustls::TlsConnector;

/// How many sessions of a control connection are kept, and what else is known of its server.
const SESSIONS: usize = 8;

/// What turns connections to a server to TLS.
#[derive(Clone)]
pub struct ServerTls {
    config: ClientConfig,
    name: ServerName,
}

impl ServerTls {
    /// For a server whose certificate is for this name, or any other one where it is given by its
    /// address; and is one of a PEM file, or of an authority that is one of the file.
    ///
    /// # Errors
    ///
    /// Where the file can't be read, or has no certificate; and where the name can be none.
    pub fn read(file: &Path, name: &str) -> io::Result<ServerTls> {
        let named =
            |error: io::Error| io::Error::new(error.kind(), format!("{}: {error}", file.display()));
        let found = File::open(file).and_then(|it| rustls_pemfile::certs(&mut BufReader::new(it)));
        let found = found.map_err(named)?;
        if found.is_empty() {
            return Err(named(io::Error::new(ErrorKind::InvalidData, "no certificate")));
        }
        let mut roots = RootCertStore::empty();
        roots.add_parsable_certificates(&found);
        let own = found.into_iter().map(Certificate).collect();
        let verifier = Checked { roots: WebPkiVerifier::new(roots, None), own };
        let config = ClientConfig::builder().with_safe_defaults();
        let config = config.with_custom_certificate_verifier(Arc::new(verifier));
        let name = ServerName::try_from(name).map_err(|_| {
            io::Error::new(ErrorKind::InvalidInput, format!("{name} is no name of a server"))
        })?;
        Ok(ServerTls { config: config.with_no_client_auth(), name })
    }

    /// For a new control connection and its data connections.
    pub fn of_connection(&self) -> ToServer {
        let sessions = ClientSessionMemoryCache::new(SESSIONS);
        let (mut control, mut data) = (self.config.clone(), self.config.clone());
        control.session_storage = sessions.clone();
        data.session_storage = Arc::new(OfControl(sessions));
        let (control, data) = (Arc::new(control).into(), Arc::new(data).into());
        ToServer { control, data, name: self.name.clone() }
    }
}

/// The same for a control connection and its data connections.
pub struct ToServer {
    control: TlsConnector,
    data: TlsConnector,
    name: ServerName,
}

impl ToServer {
    /// Turns the control connection to TLS, within a time.
    ///
    /// # Errors
    ///
    /// Those of the handshake, and where the certificate is not the server's.
    pub async fn turn_control(&self, tcp: TcpStream, patience: Duration) -> io::Result<Stream> {
        Stream::connect_tls(tcp, &self.control, self.name.clone(), patience).await
    }

    /// Turns a data connection to TLS, within a time. It resumes the session of the control
    /// connection, where the server lets it.
    ///
    /// # Errors
    ///
    /// As those of [`ToServer::turn_control`].
    pub async fn turn_data(&self, tcp: TcpStream, patience: Duration) -> io::Result<Stream> {
        Stream::connect_tls(tcp, &self.data, self.name.clone(), patience).await
    }
}

/// The sessions of a control connection, which those of its data connections don't replace.
struct OfControl(Arc<ClientSessionMemoryCache>);

impl StoresClientSessions for OfControl {
    fn put(&self, _: Vec<u8>, _: Vec<u8>) -> bool {
        false
    }

    fn get(&self, key: &[u8]) -> Option<Vec<u8>> {
        self.0.get(key)
    }
}

/// What checks a server's certificate.
struct Checked {
    roots: WebPkiVerifier,
    /// Those that are taken as they are: whoever named them knows whose they are. So the certificate
    /// of a server may be signed by itself, whatever it says of its name and its time.
    own: Vec<Certificate>,
}

impl ServerCertVerifier for Checked {
    fn verify_server_cert(
        &self,
        end_entity: &Certificate,
        intermediates: &[Certificate],
        name: &ServerName,
        scts: &mut dyn Iterator<Item = &[u8]>,
        ocsp: &[u8],
        now: SystemTime,
    ) -> Result<ServerCertVerified, rustls::Error> {
        if self.own.contains(end_entity) {
            return Ok(ServerCertVerified::assertion());
        }
        if matches!(name, ServerName::IpAddress(_)) {
            let text =
                "the server is given by its address, and no name to look for in its certificate";
            return Err(rustls::Error::General(text.to_string()));
        }
        self.roots.verify_server_cert(end_entity, intermediates, name, scts, ocsp, now)
    }
}
