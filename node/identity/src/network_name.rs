//! The name of a network.

use std::fmt;

/// How many bytes a name has at most.
pub const LONGEST: usize = 64;

/// The name of a network: 1 to 64 letters, digits and signs `-`, `_`, `.` of ASCII.
#[derive(Clone, Debug, PartialEq, Eq)]
#[cfg_attr(feature = "serde", derive(serde::Deserialize, serde::Serialize))]
#[cfg_attr(feature = "serde", serde(try_from = "String", into = "String"))]
pub struct NetworkName(String);

impl TryFrom<String> for NetworkName {
    type Error = String;

    fn try_from(name: String) -> Result<NetworkName, String> {
        let is_in_name = |byte: u8| byte.is_ascii_alphanumeric() || b"-_.".contains(&byte);
        if (1..=LONGEST).contains(&name.len()) && name.bytes().all(is_in_name) {
            return Ok(NetworkName(name));
        }
        Err(format!(
            "`network` is {name:?}: name the network by 1 to {LONGEST} letters, digits, `-`, `_` and `.`, the same for all members"
        ))
    }
}

impl From<NetworkName> for String {
    fn from(name: NetworkName) -> String {
        name.0
    }
}

impl fmt::Display for NetworkName {
    fn fmt(&self, f: &mut fmt::Formatter<'_>) -> fmt::Result {
        f.write_str(&self.0)
    }
}

impl NetworkName {
    /// Its number of bytes in one byte, and its bytes: no other name's begin so.
    pub fn prefixed(&self) -> Vec<u8> {
        let mut bytes = vec![self.0.len() as u8];
        bytes.extend_from_slice(self.0.as_bytes());
        bytes
    }

    /// Splits a name from the bytes behind it, as [`NetworkName::prefixed`] writes it; `None` where no name is there.
    pub fn split(bytes: &[u8]) -> Option<(NetworkName, &[u8])> {
        let (length, rest) = bytes.split_first()?;
        let (name, rest) = rest.split_at_checked(usize::from(*length))?;
        let name = String::from_utf8(name.to_vec()).ok()?;
        Some((NetworkName::try_from(name).ok()?, rest))
    }
}

#[cfg(test)]
mod tests {
    use super::*;

    fn name(text: &str) -> NetworkName {
        NetworkName::try_from(text.to_owned()).expect("a name")
    }

    #[test]
    fn other_names_are_refused_and_say_what_to_do() {
        for text in ["", "a b", "ä", "a/b", &"a".repeat(65)] {
            let said = NetworkName::try_from(text.to_owned()).expect_err("it is refused");
            assert!(said.contains("`network`") && said.contains("1 to 64 letters"), "{said}");
        }
        assert_eq!(name(&"a".repeat(64)).to_string().len(), 64);
    }

    #[test]
    fn a_name_is_split_from_what_follows() {
        let bytes = [name("main-1").prefixed(), vec![7, 8]].concat();
        assert_eq!(NetworkName::split(&bytes), Some((name("main-1"), &[7, 8][..])));
        assert_eq!(NetworkName::split(&bytes[..4]), None);
        assert_eq!(NetworkName::split(&[0]), None);
    }
}
