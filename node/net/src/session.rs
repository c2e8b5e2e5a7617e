//! A connection between two members that have shown who they are and said what they share.

use crate::greeting::Greeting;
use crate::members::Members;
use crate::tls::{Encrypted, Tls};
use simplex_view_state::Participant;
use std::io::{self, Read, Write};
use std::net::{TcpStream, ToSocketAddrs};
use std::sync::Arc;
use std::time::{Duration, Instant};

/// After how long without a byte a link is closed.
pub const SILENCE: Duration = Duration::from_secs(2);
/// How long a new connection may take to greet, as a whole: the handshake and both greetings.
pub const GREETING: Duration = Duration::from_secs(2);

/// How a member begins connections and takes those of others.
pub struct Credentials {
    members: Arc<Members>,
    tls: Tls,
    greeting: Greeting,
}

impl Credentials {
    /// Those of a member with these keys, which greets so.
    ///
    /// # Errors
    ///
    /// Where OpenSSL refuses: an ed25519 key and TLS 1.3 are what it takes.
    pub fn new(members: Members, greeting: Greeting) -> io::Result<Credentials> {
        let members = Arc::new(members);
        Ok(Credentials {
            tls: Tls::new(&members)?,
            members,
            greeting,
        })
    }

    /// The members.
    pub fn members(&self) -> &Members {
        &self.members
    }

    /// Begins a connection to a member. A name is resolved now, and its addresses are tried one after another.
    ///
    /// # Errors
    ///
    /// `PermissionDenied` where another process replies, `InvalidInput` where its settings differ, and those of the network.
    pub fn connect(&self, to: Participant, address: impl ToSocketAddrs) -> io::Result<Session> {
        let addresses = address.to_socket_addrs()?;
        let until = Instant::now() + GREETING;
        let mut refused = io::Error::new(io::ErrorKind::AddrNotAvailable, "the name has no address");
        for address in addresses {
            let left = until.saturating_duration_since(Instant::now()).max(Duration::from_millis(1));
            match TcpStream::connect_timeout(&address, left) {
                Ok(stream) => {
                    stream.set_nodelay(true)?;
                    return self.greeted(self.tls.connect(to, stream, until)?);
                }
                Err(error) => refused = error,
            }
        }
        Err(refused)
    }

    /// Takes a connection, and says whose it is.
    ///
    /// # Errors
    ///
    /// `PermissionDenied` where it is no other member's. With the member, `InvalidInput` where its settings differ. And those of the
    /// network.
    pub fn accept(&self, stream: TcpStream) -> Result<(Participant, Session), (Option<Participant>, io::Error)> {
        let until = Instant::now() + GREETING;
        stream.set_nodelay(true).map_err(|error| (None, error))?;
        let (from, encrypted) = self.tls.accept(stream, until).map_err(|error| (None, error))?;
        let session = self.greeted(encrypted).map_err(|error| (Some(from), error))?;
        Ok((from, session))
    }

    fn greeted(&self, mut stream: Encrypted) -> io::Result<Session> {
        self.greeting.exchange(&mut stream)?;
        stream.get_mut().each_within(SILENCE)?;
        Ok(Session { stream })
    }
}

/// A connection to a member, over which frames go.
#[derive(Debug)]
pub struct Session {
    stream: Encrypted,
}

impl Session {
    /// The TCP stream below: what is written to it itself would break the session.
    pub fn tcp(&self) -> &TcpStream {
        self.stream.get_ref().tcp()
    }

    /// Reads and drops what has come, without waiting. Returns whether anything has; an error where the connection has ended.
    pub(crate) fn drain(&mut self) -> io::Result<bool> {
        self.tcp().set_nonblocking(true)?;
        let drained = self.drain_at_once();
        self.tcp().set_nonblocking(false)?;
        drained
    }

    fn drain_at_once(&mut self) -> io::Result<bool> {
        let (mut bytes, mut is_any) = ([0; 256], false);
        loop {
            match self.stream.read(&mut bytes) {
                Ok(0) => return Err(io::ErrorKind::UnexpectedEof.into()),
                Ok(_) => is_any = true,
                Err(error) if error.kind() == io::ErrorKind::WouldBlock => return Ok(is_any),
                Err(error) => return Err(error),
            }
        }
    }
}

impl Read for Session {
    fn read(&mut self, buffer: &mut [u8]) -> io::Result<usize> {
        self.stream.read(buffer)
    }
}

impl Write for Session {
    fn write(&mut self, bytes: &[u8]) -> io::Result<usize> {
        self.stream.write(bytes)
    }

    fn flush(&mut self) -> io::Result<()> {
        self.stream.flush()
    }
}
