//! How times and schedules are written on a command line.

use crate::plan::{Crash, Partition};
use std::fmt;
use std::ops::RangeInclusive;
use std::str::FromStr;
use std::time::Duration;

/// Why a word is refused: what is expected in its place.
#[derive(Clone, PartialEq, Eq, Debug)]
pub struct NotUnderstood(String);

impl fmt::Display for NotUnderstood {
    fn fmt(&self, f: &mut fmt::Formatter<'_>) -> fmt::Result {
        f.write_str(&self.0)
    }
}

impl std::error::Error for NotUnderstood {}

fn expected<T>(found: Option<T>, word: &str, example: &str) -> Result<T, NotUnderstood> {
    found.ok_or_else(|| NotUnderstood(format!("{word:?} is not understood: write it as {example}")))
}

fn milliseconds(word: &str) -> Option<u64> {
    let digits = word.trim_end_matches(|it: char| it.is_ascii_alphabetic());
    let number: u64 = digits.parse().ok()?;
    match &word[digits.len()..] {
        "" | "ms" => Some(number),
        "s" => number.checked_mul(1000),
        "m" => number.checked_mul(60_000),
        _ => None,
    }
}

/// Reads a time: `500ms`, `10s`, `2m`; a number alone is of milliseconds.
pub fn duration(word: &str) -> Result<Duration, NotUnderstood> {
    expected(milliseconds(word).map(Duration::from_millis), word, "500ms, 10s or 2m")
}

/// Reads a range of times, as `50..200` (milliseconds), `50ms..2s`, or one time.
pub fn range(word: &str) -> Result<RangeInclusive<u64>, NotUnderstood> {
    let (from, to) = word.split_once("..").unwrap_or((word, word));
    let found = milliseconds(from).zip(milliseconds(to)).filter(|it| it.0 <= it.1);
    expected(found.map(|it| it.0..=it.1), word, "50..200 or 50ms..2s")
}

impl FromStr for Partition {
    type Err = NotUnderstood;

    /// `10s..20s`, or with the members that are on one side, `10s..20s:0,1,2`.
    fn from_str(word: &str) -> Result<Partition, NotUnderstood> {
        let (times, side) = word.split_once(':').map_or((word, None), |it| (it.0, Some(it.1)));
        let side = side
            .map(|it| it.split(',').map(str::parse).collect::<Result<Vec<u32>, _>>())
            .transpose();
        let found = range(times).ok().zip(side.ok()).filter(|it| it.0.start() < it.0.end());
        let partition = found.map(|(times, side)| Partition {
            from: *times.start(),
            to: *times.end(),
            side,
        });
        expected(partition, word, "10s..20s, or 10s..20s:0,1,2 with the members of one side")
    }
}

impl fmt::Display for Partition {
    fn fmt(&self, f: &mut fmt::Formatter<'_>) -> fmt::Result {
        write!(f, "{}..{}", self.from, self.to)?;
        let side = self
            .side
            .as_ref()
            .map(|it| it.iter().map(u32::to_string).collect::<Vec<_>>().join(","));
        side.map_or(Ok(()), |it| write!(f, ":{it}"))
    }
}

impl FromStr for Crash {
    type Err = NotUnderstood;

    /// `3@15s`, back after two seconds, or `3@15s..25s`.
    fn from_str(word: &str) -> Result<Crash, NotUnderstood> {
        let read = || {
            let (member, times) = word.split_once('@')?;
            let member = member.parse().ok()?;
            let times = range(times).ok()?;
            let to = if times.start() == times.end() {
                times.end() + Crash::DOWN
            } else {
                *times.end()
            };
            let from = *times.start();
            Some(Crash { member, from, to })
        };
        expected(read(), word, "3@15s, or 3@15s..25s with the time at which it comes back")
    }
}

impl fmt::Display for Crash {
    fn fmt(&self, f: &mut fmt::Formatter<'_>) -> fmt::Result {
        write!(f, "{}@{}..{}", self.member, self.from, self.to)
    }
}

#[cfg(test)]
mod tests {
    use super::*;

    #[test]
    fn what_is_written_is_read_back() {
        for word in ["10000..20000", "10000..20000:0,2"] {
            assert_eq!(word.parse::<Partition>().expect("a partition").to_string(), word);
        }
        let crash: Crash = "3@15s".parse().expect("a crash");
        assert_eq!(
            (crash.to_string().as_str(), crash.to_string().parse()),
            ("3@15000..17000", Ok(crash))
        );
        assert_eq!(range("50..200"), Ok(50..=200));
        assert_eq!(duration("2m"), Ok(Duration::from_secs(120)));
    }

    #[test]
    fn what_is_refused_says_how_it_is_written() {
        let said = "20s..10s".parse::<Partition>().expect_err("it ends before it begins").to_string();
        assert!(said.contains("10s..20s:0,1,2"), "{said}");
        assert!("x@3s".parse::<Crash>().is_err() && "3".parse::<Crash>().is_err());
        assert!(duration("10 parsecs").is_err() && range("200..50").is_err());
    }
}
