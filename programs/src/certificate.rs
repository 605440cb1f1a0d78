//! The certificates of a server and their private key, of two PEM files.
use crate::tls::DataSession;
use std::fs::File;
use std::io::{self, BufReader, ErrorKind};
use std::path::Path;
use std::sync::Arc;
use tokio_rustls::rustls::internal::msgs::enums::SignatureAlgorithm;
use tokio_rustls::rustls::server::{ClientHello, ResolvesServerCert};
use tokio_rustls::rustls::sign::{any_supported_type, CertifiedKey, Signer, SigningKey};
use tokio_rustls::rustls::{self, version::TLS12, ALL_VERSIONS};
use tokio_rustls::rustls::{Certificate, PrivateKey, ServerConfig, SignatureScheme};
use tokio_rustls::webpki::{self, EndEntityCert};

/// What is signed to compare a key with a certificate.
const MESSAGE: &[u8] = b"is this the key of the certificate?";

/// How each kind of key signs, and what verifies it.
static SCHEMES: [(SignatureScheme, &webpki::SignatureAlgorithm); 4] = [
    (SignatureScheme::RSA_PKCS1_SHA256, &webpki::RSA_PKCS1_2048_8192_SHA256),
    (SignatureScheme::ECDSA_NISTP256_SHA256, &webpki::ECDSA_P256_SHA256),
    (SignatureScheme::ECDSA_NISTP384_SHA384, &webpki::ECDSA_P384_SHA384),
    (SignatureScheme::ED25519, &webpki::ED25519),
];

/// A certificate without its key. It proves nothing: a handshake only succeeds that resumes a session,
/// for which a server has to sign nothing (RFC 5246, section 7.3; RFC 8446, section 2.2).
pub(crate) struct Unproved(Arc<CertifiedKey>);

impl ResolvesServerCert for Unproved {
    fn resolve(&self, _: ClientHello) -> Option<Arc<CertifiedKey>> {
        Some(self.0.clone())
    }
}

/// The key in place of one of this kind.
struct NoKey(SignatureAlgorithm);

impl SigningKey for NoKey {
    fn choose_scheme(&self, _: &[SignatureScheme]) -> Option<Box<dyn Signer>> {
        None
    }

    fn algorithm(&self) -> SignatureAlgorithm {
        self.0
    }
}

/// A server's side of TLS, with the certificates and the key of two PEM files, in the versions in which
/// data connections can have such sessions; and the certificates without the key.
///
/// # Errors
///
/// Where a file can't be read, or has no certificate or no private key; and where the key isn't that
/// of the first certificate, with which no handshake would succeed.
pub(crate) fn tls_config(
    certificates: &Path,
    key: &Path,
    data: DataSession,
) -> io::Result<(ServerConfig, Unproved)> {
    let chain = rustls_pemfile::certs(&mut BufReader::new(File::open(certificates)?))?;
    let first = chain.first().ok_or_else(|| invalid("no certificate"))?;
    let key = private_key(key)?;
    let signing =
        any_supported_type(&key).map_err(|_| invalid("no private key of a known kind"))?;
    if !is_key_of(&*signing, first)? {
        return Err(invalid("the key is not that of the first certificate"));
    }
    let chain: Vec<_> = chain.into_iter().map(Certificate).collect();
    let no_key = Arc::new(NoKey(signing.algorithm()));
    let unproved = Unproved(Arc::new(CertifiedKey::new(chain.clone(), no_key)));
    let versions = match data {
        DataSession::Resumed => &[&TLS12][..],
        DataSession::Any => ALL_VERSIONS,
    };
    let config = ServerConfig::builder().with_safe_default_cipher_suites();
    let config = config.with_safe_default_kx_groups().with_protocol_versions(versions);
    let fault = |error: rustls::Error| invalid(&error.to_string());
    let config = config.map_err(fault)?.with_no_client_auth().with_single_cert(chain, key);
    Ok((config.map_err(fault)?, unproved))
}

/// The first private key of a PEM file.
fn private_key(file: &Path) -> io::Result<PrivateKey> {
    let items = rustls_pemfile::read_all(&mut BufReader::new(File::open(file)?))?;
    let key = items.into_iter().find_map(|item| match item {
        rustls_pemfile::Item::PKCS8Key(key)
        | rustls_pemfile::Item::RSAKey(key)
        | rustls_pemfile::Item::ECKey(key) => Some(PrivateKey(key)),
        _ => None,
    });
    key.ok_or_else(|| invalid("no private key"))
}

/// Whether a key is that of a certificate: what one signs, the other has to verify. A certificate
/// that `webpki` doesn't support, as one of X.509's version 1, is taken without that.
fn is_key_of(key: &dyn SigningKey, certificate: &[u8]) -> io::Result<bool> {
    let certificate = match EndEntityCert::try_from(certificate) {
        Ok(certificate) => certificate,
        Err(webpki::Error::BadDer) => return Err(invalid("no certificate")),
        Err(_) => return Ok(true),
    };
    Ok(SCHEMES.iter().any(|(scheme, algorithm)| {
        let signature = key.choose_scheme(&[*scheme]).and_then(|it| it.sign(MESSAGE).ok());
        signature.is_some_and(|it| certificate.verify_signature(algorithm, MESSAGE, &it).is_ok())
    }))
}

fn invalid(what: &str) -> io::Error {
    io::Error::new(ErrorKind::InvalidData, what.to_string())
}
