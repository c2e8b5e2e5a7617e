//! Metrics over HTTP.

use super::Counters;
use crate::http::{self, Reply, Request};
use std::io;
use std::net::SocketAddr;
use std::sync::Arc;

/// Serves the counters by HTTP. Returns where.
///
/// # Errors
///
/// Where the address can't be listened at.
pub fn serve(address: SocketAddr, counters: Arc<Counters>) -> io::Result<SocketAddr> {
    http::serve(address, move |request: &Request| {
        let is_asked = request.method == "GET" && request.path == "/metrics";
        let (status, body) = if is_asked { (200, counters.text()) } else { (404, String::new()) };
        let kind = "text/plain; version=0.0.4";
        Reply { status, kind, body }
    })
}

#[cfg(test)]
mod tests {
    use super::*;
    use std::io::{Read, Write};
    use std::net::TcpStream;
    use std::sync::atomic::Ordering::Relaxed;
    use std::time::{Duration, Instant};

    #[test]
    fn counters_are_served() {
        let counters = Arc::new(Counters::default());
        counters.height.store(7, Relaxed);
        let address = serve("127.0.0.1:0".parse().expect("an address"), counters).expect("a port");
        let ask = |path: &str| {
            let mut stream = TcpStream::connect(address).expect("it listens");
            write!(stream, "GET {path} HTTP/1.1\r\nHost: x\r\n\r\n").expect("it reads");
            let mut text = String::new();
            stream.read_to_string(&mut text).expect("a reply");
            text
        };
        // Who sends no request holds up nobody.
        let slow: Vec<TcpStream> = (0..12).map(|_| TcpStream::connect(address).expect("it listens")).collect();
        let begun = Instant::now();
        assert!(ask("/metrics").contains("\n# TYPE simplex_height gauge\nsimplex_height 7\n"));
        assert!(ask("/").starts_with("HTTP/1.1 404"));
        // (one after another they would take a second each)
        assert!(begun.elapsed() < Duration::from_secs(8), "{:?}", begun.elapsed());
        drop(slow);
    }
}
