//! The values of `simplex-view-state` in settings, JSON and other formats of serde. The package itself has no dependencies, so that it builds
//! without any other crate.
//!
//! Fields name this crate by `with`; elsewhere a value is wrapped in [`Serde`].
//!
//! ```
//! use serde::{Deserialize, Serialize};
//! use simplex_serde::Serde;
//! use simplex_view_state::{Digest, Participant, View};
//!
//! #[derive(Serialize, Deserialize, PartialEq, Debug)]
//! struct Settings {
//!     #[serde(with = "simplex_serde")]
//!     me: Participant,
//!     #[serde(with = "simplex_serde")]
//!     genesis: Digest,
//!     watched: Vec<Serde<View>>,
//! }
//!
//! let settings = Settings { me: Participant::new(3), genesis: Digest::new([0xab; 32]), watched: vec![Serde(View::new(7))] };
//! let json = serde_json::to_string(&settings)?;
//! assert!(json.starts_with(r#"{"me":3,"genesis":"abab"#) && json.ends_with(r#""watched":[7]}"#));
//! assert_eq!(serde_json::from_str::<Settings>(&json)?, settings);
//! # Ok::<(), serde_json::Error>(())
//! ```
//!
//! | Value | Is |
//! |---|---|
//! | `View`, `ViewDelta`, `Epoch`, `EntryCount`, `Participant`, `Token` | a number |
//! | `Moment` | a number, in milliseconds |
//! | `Digest`, `Stored`, signatures and certificates | hexadecimal digits |
//! | `Round`, `Proposal`, `Subject`, `Vote`, `Certificate` | their fields; a subject's kind is `notarize`, `nullify` or `finalize` |
//!
//! Other fields and other text are refused.

#![forbid(unsafe_code)]
#![warn(missing_docs)]

mod forms;

pub use forms::Value;

use serde::de::{DeserializeOwned, Error as _};
use serde::{Deserialize, Deserializer, Serialize, Serializer};

/// A value that is written and read as its page says.
#[derive(Clone, Copy, PartialEq, Eq, PartialOrd, Ord, Hash, Debug, Default)]
pub struct Serde<T>(pub T);

/// Writes a value: `#[serde(with = "simplex_serde")]` names it.
///
/// # Errors
///
/// Those of the format.
pub fn serialize<T: Value, S: Serializer>(it: &T, to: S) -> Result<S::Ok, S::Error>
where
    T::Form: Serialize,
{
    it.form().serialize(to)
}

/// Reads a value: `#[serde(with = "simplex_serde")]` names it.
///
/// # Errors
///
/// Those of the format, and where it is no such value.
pub fn deserialize<'de, T: Value, D: Deserializer<'de>>(from: D) -> Result<T, D::Error>
where
    T::Form: DeserializeOwned,
{
    T::of(T::Form::deserialize(from)?).map_err(D::Error::custom)
}

impl<T: Value> Serialize for Serde<T>
where
    T::Form: Serialize,
{
    fn serialize<S: Serializer>(&self, to: S) -> Result<S::Ok, S::Error> {
        serialize(&self.0, to)
    }
}

impl<'de, T: Value> Deserialize<'de> for Serde<T>
where
    T::Form: DeserializeOwned,
{
    fn deserialize<D: Deserializer<'de>>(from: D) -> Result<Serde<T>, D::Error> {
        deserialize(from).map(Serde)
    }
}

#[cfg(test)]
mod tests {
    use super::*;
    use serde_json::{Value as Json, json};
    use simplex_view_state::{
        Certificate, Config, Digest, EntryCount, Epoch, Member, Moment, Namespace, Participant, Proposal, Round, Stored, Subject, View,
        Vote,
    };

    /// Writes a value as this JSON, and reads it back.
    fn is_written_as<T: Value + PartialEq + std::fmt::Debug>(it: T, json: Json)
    where
        T::Form: Serialize + DeserializeOwned,
    {
        assert_eq!(serde_json::to_value(Serde(&it).0.form()).expect("JSON"), json);
        let read: Serde<T> = serde_json::from_value(json).expect("a value");
        assert_eq!(read.0, it);
    }

    fn is_refused<T: Value + std::fmt::Debug>(json: Json)
    where
        T::Form: DeserializeOwned,
    {
        assert!(serde_json::from_value::<Serde<T>>(json.clone()).is_err(), "{json}");
    }

    fn proposal() -> Proposal {
        let (epoch, view) = (Epoch::new(1), View::new(7));
        let (round, payload) = (Round { epoch, view }, Digest::new([0x0f; 32]));
        Proposal {
            round,
            parent: View::new(5),
            payload,
        }
    }

    #[test]
    fn numbers_are_numbers() {
        is_written_as(View::new(u64::MAX), json!(u64::MAX));
        is_written_as(Participant::new(3), json!(3));
        is_written_as(EntryCount::new(9), json!(9));
        is_written_as(Moment::from_millis(1500), json!(1500));
        is_refused::<Participant>(json!(u64::MAX));
        is_refused::<View>(json!("7"));
        is_refused::<View>(json!(-1));
    }

    #[test]
    fn bytes_are_hexadecimal_digits() {
        is_written_as(Digest::new([0xab; 32]), json!("ab".repeat(32)));
        for wrong in [
            json!("ab"),
            json!("zz".repeat(32)),
            json!("a".repeat(63)),
            json!("ä".repeat(32)),
            json!(7),
        ] {
            is_refused::<Digest>(wrong);
        }
        let config = Config::new(
            Namespace::new([1; 32]),
            4.try_into().expect("4"),
            None,
            Epoch::new(1),
            Digest::default(),
        );
        let stored = Member::start(&config, Moment::default()).expect("settings").stored();
        let hex: String = stored.to_bytes().iter().map(|it| format!("{it:02x}")).collect();
        is_written_as(stored, json!(hex));
        is_refused::<Stored>(json!(hex.replace("00", "02")));
        is_refused::<Stored>(json!(&hex[2..]));
    }

    #[test]
    fn proposals_and_votes_are_their_fields() {
        let round = json!({"epoch": 1, "view": 7});
        let block = json!({"round": round, "parent": 5, "payload": "0f".repeat(32)});
        is_written_as(proposal(), block.clone());
        let subject = Subject::Notarize(proposal());
        is_written_as(subject, json!({"notarize": block}));
        is_written_as(Subject::Nullify(proposal().round), json!({"nullify": round}));
        let (signer, signature) = (Participant::new(2), vec![1, 255]);
        is_written_as(
            Vote {
                subject,
                signer,
                signature,
            },
            json!({"subject": {"notarize": block}, "signer": 2, "signature": "01ff"}),
        );
        is_written_as(
            Certificate::of(Subject::Finalize(proposal()), vec![7]),
            json!({"subject": {"finalize": block}, "bytes": "07"}),
        );
        is_refused::<Proposal>(json!({"round": round, "parent": 5}));
        is_refused::<Round>(json!({"epoch": 1, "view": 7, "more": 0}));
    }
}
