//! Events as few bytes.

use crate::events::{NOBODY, Seen};

/// Events one behind the other, each as seven numbers of seven bits a byte: the time since the one before, the member and the other member
/// (each plus 1, 0 for nobody), the code, the views since the one before (doubled, less 1 where it falls), the choice, and the value.
pub fn pack(events: &[Seen], begun: u64) -> Vec<u8> {
    let mut bytes = Vec::with_capacity(events.len() * 8);
    let (mut at, mut view) = (begun, 0);
    for it in events {
        let member = |member: u32| if member == NOBODY { 0 } else { u64::from(member) + 1 };
        let step = it.view as i64 - view as i64;
        let doubled = ((step << 1) ^ (step >> 63)) as u64;
        let numbers = [
            it.at - at,
            member(it.member),
            it.code as u64,
            doubled,
            member(it.other),
            u64::from(it.choice),
            it.value,
        ];
        numbers.into_iter().for_each(|it| put(&mut bytes, it));
        (at, view) = (it.at, it.view);
    }
    bytes
}

fn put(bytes: &mut Vec<u8>, mut number: u64) {
    while number >= 0x80 {
        bytes.push(number as u8 | 0x80);
        number >>= 7;
    }
    bytes.push(number as u8);
}

/// Bytes in base 64.
pub fn base64(bytes: &[u8]) -> String {
    const DIGITS: &[u8; 64] = b"ABCDEFGHIJKLMNOPQRSTUVWXYZabcdefghijklmnopqrstuvwxyz0123456789+/";
    let mut text = String::with_capacity(bytes.len().div_ceil(3) * 4);
    for chunk in bytes.chunks(3) {
        let word = chunk.iter().fold(0_u32, |word, it| word << 8 | u32::from(*it)) << (8 * (3 - chunk.len()));
        for place in 0..4 {
            let digit = DIGITS[(word >> (18 - 6 * place)) as usize & 63];
            text.push(if place > chunk.len() { '=' } else { char::from(digit) });
        }
    }
    text
}

#[cfg(test)]
mod tests {
    use super::*;
    use crate::events::Code;

    #[test]
    fn numbers_are_of_seven_bits_a_byte() {
        let seen = |at, view| Seen {
            at,
            view,
            member: 3,
            other: NOBODY,
            value: 300,
            code: Code::Crash,
            choice: 1,
        };
        let bytes = pack(&[seen(10, 5), seen(138, 4)], 10);
        assert_eq!(bytes, [0, 4, 2, 10, 0, 1, 172, 2, 128, 1, 4, 2, 1, 0, 1, 172, 2]);
    }

    #[test]
    fn base_64_is_padded() {
        assert_eq!([&b"M"[..], b"Ma", b"Man"].map(base64), ["TQ==", "TWE=", "TWFu"]);
    }
}
