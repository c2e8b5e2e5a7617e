//! HTTP for small requests: one a connection. Each has a deadline, so that a client that is slow holds up no other.

use std::io::{self, BufRead, BufReader, Read, Write};
use std::net::{Shutdown, SocketAddr, TcpListener, TcpStream};
use std::sync::Arc;
use std::thread;
use std::time::{Duration, Instant};

/// How long the first line and the headers of a request may be, in bytes, and its body.
const LONGEST_HEAD: u64 = 8192;
const LONGEST_BODY: u64 = 16 << 10;
/// How many requests are served at once.
const MOST_REQUESTS: usize = 16;
/// How long a request may take to come, and how long its reply may take to go.
const WITHIN: Duration = Duration::from_secs(2);
/// How long it is waited where the system has no room for a connection or a thread.
const NO_ROOM: Duration = Duration::from_millis(50);

/// A request.
#[derive(Clone, Debug, PartialEq, Eq)]
pub struct Request {
    /// `GET`, `POST` ..
    pub method: String,
    /// The requested path: `/metrics`.
    pub path: String,
    /// The bytes that were sent.
    pub body: Vec<u8>,
}

/// A reply.
#[derive(Clone, Debug, PartialEq, Eq)]
pub struct Reply {
    /// The status: 200.
    pub status: u16,
    /// The type of the body: `text/plain`.
    pub kind: &'static str,
    /// The text of the response.
    pub body: String,
}

/// Serves requests on threads of its own, for as long as the process runs. Returns where.
///
/// # Errors
///
/// Where the address can't be listened at.
pub fn serve(address: SocketAddr, reply: impl Fn(&Request) -> Reply + Send + Sync + 'static) -> io::Result<SocketAddr> {
    let listener = TcpListener::bind(address)?;
    let bound = listener.local_addr()?;
    thread::Builder::new()
        .name("http".into())
        .spawn(move || accept_all(&listener, &Arc::new(reply)))?;
    Ok(bound)
}

fn accept_all<R: Fn(&Request) -> Reply + Send + Sync + 'static>(listener: &TcpListener, reply: &Arc<R>) {
    for stream in listener.incoming() {
        // (there may be no file descriptor left for it)
        let Ok(stream) = stream else {
            thread::sleep(NO_ROOM);
            continue;
        };
        if Arc::strong_count(reply) > MOST_REQUESTS {
            continue;
        }
        let its_own = reply.clone();
        let begun = thread::Builder::new().name("http of one".into()).spawn(move || {
            let _ = answer(&stream, &*its_own); // who asked has gone, or is slow
        });
        if begun.is_err() {
            thread::sleep(NO_ROOM);
        }
    }
}

/// Reads a request, and replies.
fn answer(stream: &TcpStream, reply: &impl Fn(&Request) -> Reply) -> io::Result<()> {
    let mut reader = BufReader::new(Until::from_now(stream));
    let reply = match read(&mut reader)? {
        Some(request) => reply(&request),
        None => Reply {
            status: 413,
            kind: "text/plain",
            body: format!("a body has at most {LONGEST_BODY} bytes\n"),
        },
    };
    let (Reply { status, kind, body }, phrase) = (&reply, phrase(reply.status));
    let head = format!(
        "HTTP/1.1 {status} {phrase}\r\nContent-Type: {kind}\r\nContent-Length: {}\r\nConnection: close\r\n\r\n",
        body.len()
    );
    let mut writer = Until::from_now(stream);
    writer.write_all(head.as_bytes())?;
    writer.write_all(body.as_bytes())?;
    stream.shutdown(Shutdown::Write)?;
    // What is not read yet would reset the connection, and the reply with it.
    io::copy(&mut reader, &mut io::sink()).map(drop)
}

fn phrase(status: u16) -> &'static str {
    match status {
        200 => "OK",
        202 => "Accepted",
        400 => "Bad Request",
        404 => "Not Found",
        409 => "Conflict",
        413 => "Content Too Large",
        503 => "Service Unavailable",
        _ => "Other",
    }
}

/// Reads a request; `None` where its body is too long.
fn read(from: &mut impl BufRead) -> io::Result<Option<Request>> {
    let mut head = from.by_ref().take(LONGEST_HEAD);
    let mut first = String::new();
    head.read_line(&mut first)?;
    let mut words = first.split_whitespace().map(str::to_owned);
    let (method, path) = (words.next().unwrap_or_default(), words.next().unwrap_or_default());
    let (mut length, mut line) = (0, String::new());
    while head.read_line(&mut line)? > 0 && !line.trim_end().is_empty() {
        if let Some((name, value)) = line.split_once(':')
            && name.eq_ignore_ascii_case("content-length")
        {
            length = value.trim().parse().map_err(io::Error::other)?;
        }
        line.clear();
    }
    if length > LONGEST_BODY {
        return Ok(None);
    }
    let mut body = vec![0; length as usize];
    from.read_exact(&mut body)?;
    Ok(Some(Request { method, path, body }))
}

/// A connection that is read and written until a moment: a time limit of each read alone would give a client that sends a byte now and then
/// any time.
struct Until<'a> {
    stream: &'a TcpStream,
    end: Instant,
}

impl Until<'_> {
    fn from_now(stream: &TcpStream) -> Until<'_> {
        Until {
            stream,
            end: Instant::now() + WITHIN,
        }
    }

    fn left(&self) -> io::Result<Option<Duration>> {
        let left = self.end.checked_duration_since(Instant::now()).filter(|it| !it.is_zero());
        left.map(Some).ok_or_else(|| io::ErrorKind::TimedOut.into())
    }
}

impl Read for Until<'_> {
    fn read(&mut self, buffer: &mut [u8]) -> io::Result<usize> {
        self.stream.set_read_timeout(self.left()?)?;
        (&mut &*self.stream).read(buffer)
    }
}

impl Write for Until<'_> {
    fn write(&mut self, bytes: &[u8]) -> io::Result<usize> {
        self.stream.set_write_timeout(self.left()?)?;
        (&mut &*self.stream).write(bytes)
    }

    fn flush(&mut self) -> io::Result<()> {
        Ok(())
    }
}

#[cfg(test)]
mod tests {
    use super::*;

    /// Within what time a slow client is left, on a machine that does much else.
    const SOON: Duration = Duration::from_secs(20);

    fn echo(request: &Request) -> Reply {
        let Request { method, path, body } = request;
        Reply {
            status: 200,
            kind: "text/plain",
            body: format!("{method} {path} {}", String::from_utf8_lossy(body)),
        }
    }

    fn served(reply: impl Fn(&Request) -> Reply + Send + Sync + 'static) -> SocketAddr {
        serve("127.0.0.1:0".parse().expect("an address"), reply).expect("a port")
    }

    fn asked(address: SocketAddr, text: &str) -> String {
        let mut stream = TcpStream::connect(address).expect("it listens");
        stream.write_all(text.as_bytes()).expect("it reads");
        let mut reply = String::new();
        stream.read_to_string(&mut reply).expect("it replies");
        reply
    }

    #[test]
    fn requests_are_read_with_their_bodies() {
        let address = served(echo);
        assert!(asked(address, "GET /x HTTP/1.1\r\nHost: y\r\n\r\n").ends_with("\r\n\r\nGET /x "));
        let posted = asked(address, "POST /x HTTP/1.1\r\ncontent-length: 3\r\n\r\nabc");
        assert!(
            posted.starts_with("HTTP/1.1 200 OK\r\n") && posted.ends_with("POST /x abc"),
            "{posted}"
        );
        let long = LONGEST_BODY as usize + 1;
        let refused = asked(
            address,
            &format!("POST /x HTTP/1.1\r\nContent-Length: {long}\r\n\r\n{}", "7".repeat(long)),
        );
        assert!(refused.starts_with("HTTP/1.1 413 "), "{refused}");
    }

    /// A client that sends a byte now and then: its time does not begin anew.
    #[test]
    fn who_is_slow_with_a_request_is_left_and_holds_up_no_other() {
        let address = served(echo);
        let slow: Vec<TcpStream> = (0..MOST_REQUESTS - 2)
            .map(|_| TcpStream::connect(address).expect("it listens"))
            .collect();
        assert!(asked(address, "GET /x HTTP/1.1\r\n\r\n").ends_with("GET /x "));
        for begin in ["", "GET /", "POST / HTTP/1.1\r\nContent-Length: 9999\r\n\r\n"] {
            let mut stream = TcpStream::connect(address).expect("it listens");
            stream.write_all(begin.as_bytes()).expect("it reads");
            let begun = Instant::now();
            while stream.write_all(b"x").is_ok() {
                assert!(begun.elapsed() < SOON, "{begin:?}: it is waited for");
                thread::sleep(Duration::from_millis(100));
            }
        }
        drop(slow);
    }

    #[test]
    fn who_does_not_read_a_reply_is_left() {
        let long = Reply {
            status: 200,
            kind: "text/plain",
            body: "x".repeat(64 << 20),
        };
        let address = served(move |_| long.clone());
        let mut stream = TcpStream::connect(address).expect("it listens");
        stream.write_all(b"GET /x HTTP/1.1\r\n\r\n").expect("it reads");
        thread::sleep(2 * WITHIN);
        let mut read = Vec::new();
        let _ = stream.read_to_end(&mut read);
        assert!(!read.is_empty() && read.len() < 64 << 20, "{} bytes", read.len());
    }
}
