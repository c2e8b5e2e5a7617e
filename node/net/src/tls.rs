//! TLS 1.3 between members, by OpenSSL: both sides show a certificate whose key is a member's, and the handshake proves that they have it.
//!
//! A certificate is made at the start, signed by the member's own key, and says nothing but that key: there is no authority. The member
//! list is what it is compared with, so its name, its dates and its extensions are not looked at.

use crate::members::Members;
use openssl::asn1::Asn1Time;
use openssl::bn::BigNum;
use openssl::error::ErrorStack;
use openssl::hash::MessageDigest;
use openssl::nid::Nid;
use openssl::pkey::{PKeyRef, Private, Public};
use openssl::ssl::{HandshakeError, Ssl, SslContext, SslMethod, SslMode, SslOptions, SslSessionCacheMode, SslVerifyMode, SslVersion};
use openssl::x509::{X509, X509NameBuilder};
use simplex_view_state::Participant;
use std::io::{self, Read, Write};
use std::net::TcpStream;
use std::sync::Arc;
use std::time::{Duration, Instant};

/// A connection to a member whose key was compared with the list: what is read and written is encrypted.
pub type Encrypted = openssl::ssl::SslStream<Timed>;

/// The credentials of handshakes: this node's certificate, and the members' keys.
pub struct Tls {
    members: Arc<Members>,
    context: SslContext,
}

impl Tls {
    /// For a member with these keys.
    pub fn new(members: &Arc<Members>) -> Result<Tls, ErrorStack> {
        let mut context = SslContext::builder(SslMethod::tls())?;
        context.set_min_proto_version(Some(SslVersion::TLS1_3))?;
        context.set_sigalgs_list("ed25519")?;
        context.set_groups_list("X25519")?;
        context
            .set_mode(SslMode::AUTO_RETRY | SslMode::ENABLE_PARTIAL_WRITE | SslMode::ACCEPT_MOVING_WRITE_BUFFER | SslMode::RELEASE_BUFFERS);
        // No session is resumed: each handshake proves the key anew.
        context.set_session_cache_mode(SslSessionCacheMode::OFF);
        context.set_options(SslOptions::NO_TICKET);
        let certificate = certificate(members.secret())?;
        context.set_certificate(&certificate)?;
        context.set_private_key(members.secret())?;
        Ok(Tls {
            members: members.clone(),
            context: context.build(),
        })
    }

    /// Shakes hands with the member that this node has connected to. An error where another process replies, or none does until then.
    pub fn connect(&self, to: Participant, stream: TcpStream, until: Instant) -> io::Result<Encrypted> {
        let session = self.session(move |members, key| members.member_of(key) == Some(to))?;
        session.connect(Timed::new(stream, until)).map_err(failed)
    }

    /// Shakes hands with whoever has connected to this node, which has to be another member.
    pub fn accept(&self, stream: TcpStream, until: Instant) -> io::Result<(Participant, Encrypted)> {
        let is_another = |members: &Members, key: &PKeyRef<Public>| members.member_of(key).is_some_and(|it| it != members.me);
        let encrypted = self.session(is_another)?.accept(Timed::new(stream, until)).map_err(failed)?;
        let certificate = encrypted.ssl().peer_certificate();
        let key = certificate.and_then(|it| it.public_key().ok());
        let from = key.and_then(|it| self.members.member_of(&it)).filter(|it| *it != self.members.me);
        Ok((from.ok_or(io::ErrorKind::PermissionDenied)?, encrypted))
    }

    /// A session with whoever shows a certificate of a key that is allowed.
    fn session(&self, is_allowed: impl Fn(&Members, &PKeyRef<Public>) -> bool + Send + Sync + 'static) -> io::Result<Ssl> {
        let mut session = Ssl::new(&self.context)?;
        let members = self.members.clone();
        session.set_verify_callback(SslVerifyMode::PEER | SslVerifyMode::FAIL_IF_NO_PEER_CERT, move |_, chain| {
            let key = chain.current_cert().and_then(|it| it.public_key().ok());
            chain.error_depth() == 0 && key.is_some_and(|it| is_allowed(&members, &it))
        });
        Ok(session)
    }
}

/// The certificate of a key, signed by itself.
fn certificate(secret: &PKeyRef<Private>) -> Result<X509, ErrorStack> {
    let mut name = X509NameBuilder::new()?;
    name.append_entry_by_nid(Nid::COMMONNAME, "simplex")?;
    let name = name.build();
    let mut certificate = X509::builder()?;
    certificate.set_version(2)?;
    certificate.set_serial_number(&*BigNum::from_u32(1)?.to_asn1_integer()?)?;
    certificate.set_subject_name(&name)?;
    certificate.set_issuer_name(&name)?;
    certificate.set_not_before(&*Asn1Time::from_unix(0)?)?;
    certificate.set_not_after(&*Asn1Time::from_str_x509("99991231235959Z")?)?;
    certificate.set_pubkey(secret)?;
    certificate.sign(secret, MessageDigest::null())?;
    Ok(certificate.build())
}

/// Why a handshake failed: `PermissionDenied` where the other side is not who it has to be.
fn failed(error: HandshakeError<Timed>) -> io::Error {
    match error {
        HandshakeError::SetupFailure(error) => error.into(),
        HandshakeError::Failure(it) | HandshakeError::WouldBlock(it) => match it.into_error().into_io_error() {
            Ok(error) => error,
            Err(error) => io::Error::new(io::ErrorKind::PermissionDenied, error),
        },
    }
}

/// A TCP stream on which all reads and writes of a greeting have to end in time, however few bytes each one brings.
#[derive(Debug)]
pub struct Timed {
    stream: TcpStream,
    until: Option<Instant>,
}

impl Timed {
    fn new(stream: TcpStream, until: Instant) -> Timed {
        Timed {
            stream,
            until: Some(until),
        }
    }

    /// The stream itself.
    pub fn tcp(&self) -> &TcpStream {
        &self.stream
    }

    /// From now on each read and each write has this long.
    pub fn each_within(&mut self, time: Duration) -> io::Result<()> {
        self.until = None;
        self.stream.set_read_timeout(Some(time))?;
        self.stream.set_write_timeout(Some(time))
    }

    fn left(&self) -> io::Result<Option<Duration>> {
        let Some(until) = self.until else { return Ok(None) };
        let left = until.checked_duration_since(Instant::now()).filter(|it| !it.is_zero());
        left.map(Some).ok_or(io::ErrorKind::TimedOut.into())
    }

    fn ended(&self, error: io::Error) -> io::Error {
        match (self.until, error.kind()) {
            (Some(_), io::ErrorKind::WouldBlock) => io::ErrorKind::TimedOut.into(),
            _ => error,
        }
    }
}

impl Read for Timed {
    fn read(&mut self, buffer: &mut [u8]) -> io::Result<usize> {
        if let Some(left) = self.left()? {
            self.stream.set_read_timeout(Some(left))?;
        }
        self.stream.read(buffer).map_err(|error| self.ended(error))
    }
}

impl Write for Timed {
    fn write(&mut self, bytes: &[u8]) -> io::Result<usize> {
        if let Some(left) = self.left()? {
            self.stream.set_write_timeout(Some(left))?;
        }
        self.stream.write(bytes).map_err(|error| self.ended(error))
    }

    fn flush(&mut self) -> io::Result<()> {
        self.stream.flush()
    }
}
