//! Parses the arguments of commands: numbers, keys, processor arguments, ids.
use crate::engine::{Arg, BOOLEAN, INTEGER, LONG, NULL};

/// The maximum number of digits of a long, without leading zeros.
const MOST_DIGITS: usize = 19;

/// Returns the long of a sign and its digits, of which there is at least one.
fn signed(negative: bool, digits: &[u8]) -> Option<i64> {
    if digits.is_empty() || digits.len() > MOST_DIGITS {
        return None;
    }
    // Numbers of nineteen digits are below 2^64.
    let mut sum: u64 = 0;
    for digit in digits {
        let value = digit.wrapping_sub(b'0');
        if value > 9 {
            return None;
        }
        sum = sum.wrapping_mul(10).wrapping_add(value.into());
    }
    match (negative, sum) {
        (true, sum) if sum <= 1 << 63 => Some((sum as i64).wrapping_neg()),
        (false, sum) if sum < 1 << 63 => Some(sum as i64),
        _ => None,
    }
}

/// The maximum number of bytes of a long in decimal, with its sign.
pub const MOST_BYTES: usize = MOST_DIGITS + 1;

/// A long in decimal, in a buffer of its own.
pub struct Decimal {
    bytes: [u8; MOST_BYTES],
    start: usize,
}

impl Decimal {
    pub fn of(value: i64) -> Decimal {
        let mut decimal = Decimal { bytes: [b'-'; MOST_BYTES], start: MOST_BYTES };
        let mut rest = value.unsigned_abs();
        for byte in decimal.bytes.iter_mut().rev() {
            *byte = b'0' + (rest % 10) as u8;
            rest /= 10;
            decimal.start -= 1;
            if rest == 0 {
                break;
            }
        }
        // The bytes ahead of the digits are signs. No long has more than nineteen digits.
        decimal.start -= usize::from(value < 0);
        decimal
    }

    pub fn bytes(&self) -> &[u8] {
        self.bytes.get(self.start..).unwrap_or(&[])
    }
}

/// Splits off a sign. Returns whether it is negative, and the rest.
fn sign_of(text: &[u8]) -> (bool, &[u8]) {
    match text {
        [b'-', rest @ ..] => (true, rest),
        _ => (false, text),
    }
}

/// Parses a decimal long like INCR: no sign but `-`, no blanks, no leading zeros.
pub fn long_of(text: &[u8]) -> Option<i64> {
    let (negative, digits) = sign_of(text);
    match digits {
        [b'0'] if !negative => Some(0),
        [b'0', ..] => None,
        _ => signed(negative, digits),
    }
}

/// Returns the processor's key: the long after the last `:`, or the whole name. Leading zeros are ignored.
pub fn key_of(name: &[u8]) -> Option<i64> {
    let place = name.iter().rposition(|byte| *byte == b':').map_or(0, |colon| colon + 1);
    let (negative, digits) = sign_of(name.get(place..)?);
    let zeros = digits.iter().take_while(|digit| **digit == b'0').count();
    match digits.get(zeros..)? {
        [] if zeros > 0 => Some(0),
        rest => signed(negative, rest),
    }
}

/// Parses an argument: a long, an Integer (digits and `i`), `false`, `true` or `null`.
pub fn arg_of(word: &[u8]) -> Option<Arg> {
    let of = |kind, value| Arg { kind, unused: 0, value };
    match word {
        b"null" => Some(of(NULL, 0)),
        b"false" => Some(of(BOOLEAN, 0)),
        b"true" => Some(of(BOOLEAN, 1)),
        [digits @ .., b'i'] => long_of(digits)
            .filter(|number| i32::try_from(*number).is_ok())
            .map(|value| of(INTEGER, value)),
        _ => long_of(word).map(|value| of(LONG, value)),
    }
}

/// A class's id: the SHA-1 of its file.
pub type Id = [u8; 20];

/// Returns the value of a hexadecimal digit.
fn digit_of(byte: u8) -> Option<u8> {
    match byte {
        b'0'..=b'9' => Some(byte - b'0'),
        b'a'..=b'f' => Some(byte - b'a' + 10),
        b'A'..=b'F' => Some(byte - b'A' + 10),
        _ => None,
    }
}

/// Parses an id of forty hexadecimal digits.
pub fn id_of(text: &[u8]) -> Option<Id> {
    let mut id = Id::default();
    if text.len() != 2 * id.len() {
        return None;
    }
    for (byte, digits) in id.iter_mut().zip(text.chunks_exact(2)) {
        match digits {
            [high, low] => *byte = digit_of(*high)? << 4 | digit_of(*low)?,
            _ => return None,
        }
    }
    Some(id)
}

/// The maximum number of bytes of a wrong argument that an error shows.
const SHOWN: usize = 48;

/// Returns the error for an argument that is no id.
pub fn no_id(text: &[u8]) -> String {
    let shown = text.get(..SHOWN).unwrap_or(text).escape_ascii();
    let more = if text.len() > SHOWN { ".." } else { "" };
    format!("ERR '{shown}{more}' is no class id: an id has 40 hexadecimal digits")
}

/// Returns the forty hexadecimal digits of an id in lower case.
pub fn digits_of(id: &Id) -> [u8; 40] {
    let mut text = [0; 40];
    for (digits, byte) in text.chunks_exact_mut(2).zip(id) {
        for (digit, value) in digits.iter_mut().zip([byte >> 4, byte & 15]) {
            *digit = if value < 10 { b'0' + value } else { b'a' + value - 10 };
        }
    }
    text
}
