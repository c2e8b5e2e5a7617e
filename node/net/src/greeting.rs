//! The greeting of a new connection: both sides name the settings that all members must share.
//!
//! Each side sends its own before it reads the other's, so where they differ both say in what.

use std::io::{self, Read, Write};

/// How long a greeting is at most.
const LONGEST: usize = 1024;

/// Settings that both sides must have alike, by name, in order. The version of what follows comes first: then others may change.
///
/// ```
/// use simplex_net::Greeting;
///
/// let here = Greeting::new(&[("version", "5"), ("network", "payments-1"), ("epoch", "1")]);
/// let there = Greeting::new(&[("version", "5"), ("network", "payments-1"), ("epoch", "2")]);
/// assert_eq!(here.compared(&here.bytes()), Ok(()));
/// let said = here.compared(&there.bytes()).expect_err("they differ");
/// assert!(said.starts_with("`epoch` is 2 there and 1 here"));
/// ```
#[derive(Clone, PartialEq, Eq, Debug)]
pub struct Greeting(Vec<(String, String)>);

impl Greeting {
    /// A greeting of these settings. A name or a value is cut after 255 bytes.
    pub fn new(settings: &[(&str, &str)]) -> Greeting {
        let owned = |(name, value): &(&str, &str)| ((*name).to_owned(), (*value).to_owned());
        Greeting(settings.iter().map(owned).collect())
    }

    /// Its bytes: each name and each value behind its length in one byte.
    pub fn bytes(&self) -> Vec<u8> {
        let mut bytes = Vec::new();
        for text in self.0.iter().flat_map(|(name, value)| [name, value]) {
            let text = &text.as_bytes()[..text.len().min(255)];
            bytes.push(text.len() as u8);
            bytes.extend_from_slice(text);
        }
        bytes
    }

    /// Says this, hears what the other side says, and compares. `InvalidInput` with the setting's name where the two differ.
    pub(crate) fn exchange(&self, stream: &mut (impl Read + Write)) -> io::Result<()> {
        let bytes = self.bytes();
        let frame = [&(bytes.len() as u16).to_be_bytes()[..], &bytes].concat();
        stream.write_all(&frame)?;
        let mut length = [0; 2];
        stream.read_exact(&mut length)?;
        let length = usize::from(u16::from_be_bytes(length));
        if length > LONGEST {
            return Err(io::ErrorKind::InvalidData.into());
        }
        let mut heard = vec![0; length];
        stream.read_exact(&mut heard)?;
        self.compared(&heard)
            .map_err(|why| io::Error::new(io::ErrorKind::InvalidInput, why))
    }

    /// Compares with the bytes that the other side said.
    ///
    /// # Errors
    ///
    /// The first setting that differs, by name, and both values.
    pub fn compared(&self, mut heard: &[u8]) -> Result<(), String> {
        for (name, here) in &self.0 {
            let (there_name, rest) = split(heard).ok_or("its greeting can't be read: it runs another release")?;
            let (there, rest) = split(rest).ok_or("its greeting can't be read: it runs another release")?;
            if there_name != name.as_bytes() || there != here.as_bytes() {
                let [there_name, there] = [there_name, there].map(String::from_utf8_lossy);
                return Err(if there_name == name.as_str() {
                    format!("`{name}` is {there} there and {here} here: all members have to have the same")
                } else {
                    format!("it says `{there_name:.40}` in place of `{name}`: it runs another release")
                });
            }
            heard = rest;
        }
        if heard.is_empty() {
            Ok(())
        } else {
            Err("its greeting says more: it runs another release".to_owned())
        }
    }
}

fn split(bytes: &[u8]) -> Option<(&[u8], &[u8])> {
    let (length, rest) = bytes.split_first()?;
    rest.split_at_checked(usize::from(*length))
}

#[cfg(test)]
mod tests {
    use super::*;

    const SETTINGS: [(&str, &str); 3] = [("version", "5"), ("network", "main"), ("epoch", "1")];

    #[test]
    fn what_is_said_is_heard_and_a_part_of_it_is_refused() {
        let it = Greeting::new(&SETTINGS);
        assert_eq!(it.compared(&it.bytes()), Ok(()));
        for cut in 0..it.bytes().len() {
            assert!(it.compared(&it.bytes()[..cut]).is_err(), "{cut} bytes");
        }
        assert!(it.compared(&[it.bytes(), vec![0]].concat()).is_err());
    }

    #[test]
    fn each_setting_that_differs_is_named_at_both_ends() {
        let here = Greeting::new(&SETTINGS);
        for (place, (name, _)) in SETTINGS.iter().enumerate() {
            let mut others = SETTINGS;
            others[place].1 = "other";
            let there = Greeting::new(&others);
            for said in [here.compared(&there.bytes()), there.compared(&here.bytes())] {
                assert!(
                    said.as_ref().is_err_and(|it| it.starts_with(&format!("`{name}` is"))),
                    "{name}: {said:?}"
                );
            }
            others[place].0 = "name";
            let said = here.compared(&Greeting::new(&others).bytes());
            assert!(said.is_err_and(|it| it.contains("another release")));
        }
    }
}
