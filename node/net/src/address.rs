//! Where a member is reached: an address, or a name that is resolved each time that it is dialled.

use std::fmt;
use std::io;
use std::net::{SocketAddr, ToSocketAddrs};
use std::vec;

/// A host and a port: `192.0.2.7:27100`, `[2001:db8::7]:27100` or `node-7.example.org:27100`.
#[derive(Clone, PartialEq, Eq, Hash, Debug)]
#[cfg_attr(feature = "serde", derive(serde::Deserialize, serde::Serialize))]
#[cfg_attr(feature = "serde", serde(try_from = "String", into = "String"))]
pub struct Address(String);

/// Returns whether a text is a name of a host: letters, digits and `-` in parts between dots.
fn is_name(text: &str) -> bool {
    let is_part = |part: &str| !part.is_empty() && part.bytes().all(|it| it.is_ascii_alphanumeric() || b"-_".contains(&it));
    // (what has numbers alone would be an address that is none, as 10.0.0.300)
    let is_number = text.bytes().all(|it| it.is_ascii_digit() || it == b'.');
    text.len() <= 253 && !is_number && text.split('.').all(is_part)
}

impl TryFrom<String> for Address {
    type Error = String;

    fn try_from(text: String) -> Result<Address, String> {
        let is_named = || {
            let (name, port) = text.rsplit_once(':')?;
            (is_name(name) && port.parse::<u16>().is_ok()).then_some(())
        };
        if text.parse::<SocketAddr>().is_ok() || is_named().is_some() {
            return Ok(Address(text.to_ascii_lowercase()));
        }
        Err(format!(
            "{text:?} is no address: write a host's address or name, a colon, and its port"
        ))
    }
}

impl From<SocketAddr> for Address {
    fn from(address: SocketAddr) -> Address {
        Address(address.to_string())
    }
}

impl From<Address> for String {
    fn from(address: Address) -> String {
        address.0
    }
}

impl fmt::Display for Address {
    fn fmt(&self, f: &mut fmt::Formatter<'_>) -> fmt::Result {
        f.write_str(&self.0)
    }
}

impl ToSocketAddrs for Address {
    type Iter = vec::IntoIter<SocketAddr>;

    /// Asks the system for the addresses of the name, now.
    fn to_socket_addrs(&self) -> io::Result<vec::IntoIter<SocketAddr>> {
        self.0.as_str().to_socket_addrs()
    }
}

#[cfg(test)]
mod tests {
    use super::*;

    #[test]
    fn addresses_and_names_with_ports_are_taken_and_other_texts_are_refused() {
        for text in ["127.0.0.1:80", "[::1]:80", "localhost:80", "Node-7.example.org:65535", "node_7:1"] {
            let address = Address::try_from(text.to_owned()).expect("an address");
            assert_eq!(address.to_string(), text.to_lowercase());
        }
        for text in [
            "",
            "127.0.0.1",
            "localhost",
            ":80",
            "a b:80",
            "a..b:80",
            "10.0.0.300:80",
            "node:65536",
            "node:",
            "http://node:80",
        ] {
            let said = Address::try_from(text.to_owned()).expect_err("it is refused");
            assert!(said.contains("a colon, and its port"), "{said}");
        }
    }

    #[test]
    fn a_name_is_resolved_when_it_is_dialled() {
        let address = Address::try_from("localhost:80".to_owned()).expect("a name");
        assert!(
            address
                .to_socket_addrs()
                .expect("it is known")
                .all(|it| it.ip().is_loopback() && it.port() == 80)
        );
    }
}
