//! TLS of both sides.
//!
//! A client asks for it by a packet in front of its StartupMessage, and the proxy asks PostgreSQL in the same way ("SSL
//! Session Encryption" in PostgreSQL's description of its protocol).

use std::fmt;
use std::fs::File;
use std::io::{self, BufReader, ErrorKind};
use std::path::{Path, PathBuf};
use std::str::FromStr;
use std::sync::{Arc, PoisonError, RwLock};
use std::time::SystemTime;

use bytes::BytesMut;
use tokio::io::{AsyncReadExt, AsyncWriteExt};
use tokio::net::TcpStream;
use tokio_rustls::rustls::client::{
    HandshakeSignatureValid, ServerCertVerified, ServerCertVerifier,
};
use tokio_rustls::rustls::{
    Certificate, ClientConfig, DigitallySignedStruct, Error as RustlsError, PrivateKey,
    ServerConfig, ServerName,
};
use tokio_rustls::{TlsAcceptor, TlsConnector, TlsStream};

use crate::error::Error;
use crate::frames::{startup, Startup};
use crate::own::fatal;
use crate::stream::Stream;

/// The packet that asks for TLS: its length, and the code 80877103.
const SSL_REQUEST: [u8; 8] = [0, 0, 0, 8, 4, 210, 22, 47];

/// The name that is sent to a server whose name is not tested and is none of DNS.
const NO_NAME: &str = "postgresql.invalid";

/// Signatures of certificates that are accepted: those of rustls by default.
const SIGNATURES: &[&webpki::SignatureAlgorithm] = &[
    &webpki::ECDSA_P256_SHA256,
    &webpki::ECDSA_P256_SHA384,
    &webpki::ECDSA_P384_SHA256,
    &webpki::ECDSA_P384_SHA384,
    &webpki::ED25519,
    &webpki::RSA_PSS_2048_8192_SHA256_LEGACY_KEY,
    &webpki::RSA_PSS_2048_8192_SHA384_LEGACY_KEY,
    &webpki::RSA_PSS_2048_8192_SHA512_LEGACY_KEY,
    &webpki::RSA_PKCS1_2048_8192_SHA256,
    &webpki::RSA_PKCS1_2048_8192_SHA384,
    &webpki::RSA_PKCS1_2048_8192_SHA512,
    &webpki::RSA_PKCS1_3072_8192_SHA384,
];

/// A file of certificates or keys that cannot be used.
#[derive(Debug, thiserror::Error)]
#[error("{}: {why}", path.display())]
pub struct BadFile {
    path: PathBuf,
    why: String,
}

impl BadFile {
    fn new(path: &Path, why: impl fmt::Display) -> BadFile {
        BadFile {
            path: path.to_owned(),
            why: why.to_string(),
        }
    }
}

/// Reads the certificates of a PEM file. There is at least one.
fn certificates(path: &Path) -> Result<Vec<Certificate>, BadFile> {
    let file = File::open(path).map_err(|error| BadFile::new(path, error))?;
    let found = rustls_pemfile::certs(&mut BufReader::new(file))
        .map_err(|error| BadFile::new(path, error))?;
    match found.is_empty() {
        true => Err(BadFile::new(path, "it has no certificate in PEM")),
        false => Ok(found.into_iter().map(Certificate).collect()),
    }
}

/// Reads the first private key of a PEM file.
fn private_key(path: &Path) -> Result<PrivateKey, BadFile> {
    let file = File::open(path).map_err(|error| BadFile::new(path, error))?;
    rustls_pemfile::read_all(&mut BufReader::new(file))
        .map_err(|error| BadFile::new(path, error))?
        .into_iter()
        .find_map(|item| match item {
            rustls_pemfile::Item::RSAKey(key)
            | rustls_pemfile::Item::PKCS8Key(key)
            | rustls_pemfile::Item::ECKey(key) => Some(PrivateKey(key)),
            _ => None,
        })
        .ok_or_else(|| BadFile::new(path, "it has no private key in PEM without a passphrase"))
}

/// TLS for clients.
#[derive(Debug)]
pub struct Acceptor {
    certificate_path: PathBuf,
    key_path: PathBuf,
    is_needed: bool,
    current: RwLock<Arc<Identity>>,
}

/// What the proxy shows to clients.
struct Identity {
    config: Arc<ServerConfig>,
    certificate: Vec<u8>,
}

impl fmt::Debug for Identity {
    fn fmt(&self, formatter: &mut fmt::Formatter<'_>) -> fmt::Result {
        formatter.write_str("Identity")
    }
}

impl Identity {
    fn read(certificate_path: &Path, key_path: &Path) -> Result<Identity, BadFile> {
        let chain = certificates(certificate_path)?;
        let certificate = chain[0].0.clone();
        let config = ServerConfig::builder()
            .with_safe_defaults()
            .with_no_client_auth()
            .with_single_cert(chain, private_key(key_path)?)
            .map_err(|error| BadFile::new(key_path, error))?;
        Ok(Identity {
            config: Arc::new(config),
            certificate,
        })
    }
}

impl Acceptor {
    /// Reads a chain of certificates, the proxy's own first, and its key, both in PEM. `is_needed`: clients over TCP without
    /// TLS are refused.
    ///
    /// # Errors
    ///
    /// Fails if one of the files cannot be read or used.
    pub fn new(certificate: &Path, key: &Path, is_needed: bool) -> Result<Acceptor, BadFile> {
        Ok(Acceptor {
            is_needed,
            current: RwLock::new(Arc::new(Identity::read(certificate, key)?)),
            certificate_path: certificate.to_owned(),
            key_path: key.to_owned(),
        })
    }

    /// Reads the files anew, for connections that begin from now on.
    ///
    /// # Errors
    ///
    /// Fails as [`Acceptor::new`]. The former certificate stays in use then.
    pub fn reload(&self) -> Result<(), BadFile> {
        let read = Arc::new(Identity::read(&self.certificate_path, &self.key_path)?);
        *self.current.write().unwrap_or_else(PoisonError::into_inner) = read;
        Ok(())
    }

    async fn accept(&self, socket: TcpStream) -> io::Result<Stream> {
        let current = self
            .current
            .read()
            .unwrap_or_else(PoisonError::into_inner)
            .clone();
        let stream = TlsAcceptor::from(current.config.clone())
            .accept(socket)
            .await?;
        Ok(Stream::Tls(
            Box::new(TlsStream::Server(stream)),
            current.certificate.clone(),
        ))
    }
}

/// Reads a client's packets to its first that asks for no encryption, and encrypts the connection as it asks.
///
/// TLS is offered over TCP if there is an acceptor, encryption by GSS never. `input` has what was read behind the packet.
/// Returns None if the client has left.
///
/// # Errors
///
/// See [`Error`].
pub async fn begin(
    mut client: Stream,
    input: &mut BytesMut,
    acceptor: Option<&Acceptor>,
) -> Result<Option<(Stream, Startup)>, Error> {
    let (mut asked_tls, mut asked_gss) = (false, false);
    loop {
        let packet = loop {
            match startup(input)? {
                Some(packet) => break packet,
                None if client.read_buf(input).await? == 0 => return Ok(None),
                None => {}
            }
        };
        let asked = match packet {
            Startup::Tls => &mut asked_tls,
            Startup::Gss => &mut asked_gss,
            Startup::Message(_) if needs_tls(&client, acceptor) => {
                client.write_all(&fatal("28000", NO_TLS)).await?;
                client.shutdown().await?;
                return Err(Error::Plain);
            }
            Startup::Message(_) | Startup::Cancel(_) => return Ok(Some((client, packet))),
        };
        if std::mem::replace(asked, true) || client.certificate().is_some() {
            return Err(Error::Twice);
        }
        if !input.is_empty() {
            return Err(Error::Unencrypted);
        }
        client = match (client, acceptor, packet) {
            (Stream::Tcp(mut socket), Some(acceptor), Startup::Tls) => {
                socket.write_all(b"S").await?;
                acceptor.accept(socket).await?
            }
            (mut other, _, _) => {
                other.write_all(b"N").await?;
                other
            }
        };
    }
}

/// What a client is told that has to use TLS.
const NO_TLS: &str = "escrowd-proxy needs TLS; connect with sslmode=require";

/// Returns whether the connection has to be encrypted and is not. A CancelRequest may come without, since libpq sends it so.
fn needs_tls(client: &Stream, acceptor: Option<&Acceptor>) -> bool {
    let is_plain = matches!(client, Stream::Tcp(_));
    is_plain && acceptor.map_or(false, |acceptor| acceptor.is_needed)
}

/// How a connection to PostgreSQL is encrypted: `sslmode` of a connection string of libpq. `allow` is none of them: its
/// second try follows a refused authentication, which is the client's own.
#[derive(Clone, Copy, Debug, Default, PartialEq, Eq)]
pub enum Mode {
    /// It is not.
    Disable,
    /// It is if the server offers it.
    #[default]
    Prefer,
    /// It has to be.
    Require,
    /// The server's certificate has to be signed by one of the root certificates as well.
    VerifyCa,
    /// The certificate has to have the server's name as well.
    VerifyFull,
}

/// An `sslmode` that there is not.
#[derive(Clone, Debug, PartialEq, Eq, thiserror::Error)]
#[error("sslmode={0} is not one of disable, prefer, require, verify-ca and verify-full")]
pub struct BadMode(String);

impl FromStr for Mode {
    type Err = BadMode;

    fn from_str(text: &str) -> Result<Mode, BadMode> {
        Ok(match text {
            "disable" => Mode::Disable,
            "prefer" => Mode::Prefer,
            "require" => Mode::Require,
            "verify-ca" => Mode::VerifyCa,
            "verify-full" => Mode::VerifyFull,
            other => return Err(BadMode(other.to_owned())),
        })
    }
}

/// TLS for connections to PostgreSQL.
#[derive(Clone)]
pub struct Connector {
    mode: Mode,
    config: Arc<ClientConfig>,
}

impl fmt::Debug for Connector {
    fn fmt(&self, formatter: &mut fmt::Formatter<'_>) -> fmt::Result {
        formatter
            .debug_tuple("Connector")
            .field(&self.mode)
            .finish()
    }
}

impl Connector {
    /// Returns what `sslmode` and `sslrootcert` ask for. `root` has the certificates that the server's may be signed by, in
    /// PEM. As in libpq, they are tested whenever there is such a file, also by `prefer` and `require`.
    ///
    /// # Errors
    ///
    /// Fails if the file cannot be read or used, and if there is none though the mode needs it.
    pub fn new(mode: Mode, root: Option<&Path>) -> Result<Connector, BadFile> {
        let verifier: Arc<dyn ServerCertVerifier> = match (mode, root) {
            (Mode::Disable, _) | (Mode::Prefer | Mode::Require, None) => Arc::new(Unverified),
            (_, Some(path)) => Arc::new(Verifier {
                roots: certificates(path)?,
                tests_name: mode == Mode::VerifyFull,
            }),
            (Mode::VerifyCa | Mode::VerifyFull, None) => {
                let why =
                    "sslmode verify-ca and verify-full need this file, or another by sslrootcert";
                return Err(BadFile::new(Path::new("~/.postgresql/root.crt"), why));
            }
        };
        let config = ClientConfig::builder()
            .with_safe_defaults()
            .with_custom_certificate_verifier(verifier)
            .with_no_client_auth();
        Ok(Connector {
            mode,
            config: Arc::new(config),
        })
    }

    /// Encrypts a new connection to the server of this name, if the mode asks for it and the server offers it.
    ///
    /// # Errors
    ///
    /// Fails if the mode asks for it and the server does not offer it, and if its certificate does not pass.
    pub async fn encrypt(&self, mut socket: TcpStream, host: &str) -> io::Result<Stream> {
        if self.mode == Mode::Disable {
            return Stream::tcp(socket);
        }
        socket.write_all(&SSL_REQUEST).await?;
        match (socket.read_u8().await?, self.mode) {
            (b'S', _) => {}
            (b'N', Mode::Prefer) => return Stream::tcp(socket),
            (b'N', _) => return Err(other("the server does not offer TLS")),
            (_, _) => {
                return Err(other(
                    "the server's answer to a request for TLS is an error",
                ))
            }
        }
        let name = match ServerName::try_from(host) {
            Ok(name) => name,
            Err(error) if self.mode == Mode::VerifyFull => return Err(other(error)),
            Err(_) => ServerName::try_from(NO_NAME).map_err(other)?,
        };
        socket.set_nodelay(true)?;
        let stream = TlsConnector::from(self.config.clone())
            .connect(name, socket)
            .await?;
        let certificate = match stream.get_ref().1.peer_certificates() {
            Some([first, ..]) => first.0.clone(),
            Some([]) | None => return Err(other("the server has no certificate")),
        };
        Ok(Stream::Tls(
            Box::new(TlsStream::Client(stream)),
            certificate,
        ))
    }
}

fn other(error: impl Into<Box<dyn std::error::Error + Send + Sync>>) -> io::Error {
    io::Error::new(ErrorKind::Other, error)
}

/// Tests the certificate of a server.
struct Verifier {
    /// What it may be signed by.
    roots: Vec<Certificate>,
    tests_name: bool,
}

impl Verifier {
    /// Tests that one of the roots has signed the certificate. One that is itself among them passes, whatever its dates are.
    fn test_chain(
        &self,
        server: &Certificate,
        chain: &[Certificate],
        now: SystemTime,
    ) -> Result<(), RustlsError> {
        if self.roots.contains(server) {
            return Ok(());
        }
        let now = webpki::Time::try_from(now).map_err(|_| RustlsError::FailedToGetCurrentTime)?;
        let anchors: Vec<webpki::TrustAnchor<'_>> = self
            .roots
            .iter()
            .filter_map(|root| webpki::TrustAnchor::try_from_cert_der(&root.0).ok())
            .collect();
        let anchors = webpki::TlsServerTrustAnchors(&anchors);
        let chain: Vec<&[u8]> = chain.iter().map(|it| it.0.as_slice()).collect();
        webpki::EndEntityCert::try_from(server.0.as_slice())
            .and_then(|it| it.verify_is_valid_tls_server_cert(SIGNATURES, &anchors, &chain, now))
            .map_err(invalid)
    }

    /// Tests that the server's name is among the alternative names of its certificate.
    fn test_name(server: &Certificate, host: &ServerName) -> Result<(), RustlsError> {
        let name = match host {
            ServerName::DnsName(name) => webpki::DnsNameRef::try_from_ascii_str(name.as_ref())
                .map_err(|_| RustlsError::UnsupportedNameType)?,
            _ => return Err(RustlsError::UnsupportedNameType),
        };
        webpki::EndEntityCert::try_from(server.0.as_slice())
            .and_then(|it| it.verify_is_valid_for_dns_name(name))
            .map_err(invalid)
    }
}

fn invalid(error: webpki::Error) -> RustlsError {
    RustlsError::InvalidCertificateData(error.to_string())
}

impl ServerCertVerifier for Verifier {
    fn verify_server_cert(
        &self,
        server: &Certificate,
        chain: &[Certificate],
        host: &ServerName,
        _: &mut dyn Iterator<Item = &[u8]>,
        _: &[u8],
        now: SystemTime,
    ) -> Result<ServerCertVerified, RustlsError> {
        self.test_chain(server, chain, now)?;
        if self.tests_name {
            Verifier::test_name(server, host)?;
        }
        Ok(ServerCertVerified::assertion())
    }
}

/// Takes every certificate. Its signature would prove nothing either, and webpki reads no certificate of version 1.
struct Unverified;

impl ServerCertVerifier for Unverified {
    fn verify_server_cert(
        &self,
        _: &Certificate,
        _: &[Certificate],
        _: &ServerName,
        _: &mut dyn Iterator<Item = &[u8]>,
        _: &[u8],
        _: SystemTime,
    ) -> Result<ServerCertVerified, RustlsError> {
        Ok(ServerCertVerified::assertion())
    }

    fn verify_tls12_signature(
        &self,
        _: &[u8],
        _: &Certificate,
        _: &DigitallySignedStruct,
    ) -> Result<HandshakeSignatureValid, RustlsError> {
        Ok(HandshakeSignatureValid::assertion())
    }

    fn verify_tls13_signature(
        &self,
        _: &[u8],
        _: &Certificate,
        _: &DigitallySignedStruct,
    ) -> Result<HandshakeSignatureValid, RustlsError> {
        Ok(HandshakeSignatureValid::assertion())
    }
}
