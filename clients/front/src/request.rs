//! The frames of a connection: which are valid requests, and what they ask for.
//!
//! The server ends its stream after an invalid frame, and all connections share that stream. So
//! each frame is fully validated here before it goes to the server.

use crate::protocol::requests::{CONTAINS, DEFINE, END, GET, INVOKE, INVOKE_ALL, PUT};
use crate::protocol::values::{FALSE, INTEGER, LONG, NULL, TRUE};
use crate::protocol::MOST_ARGUMENTS;
pub use crate::protocol::{LONGEST, MOST_CLASSES, MOST_JOBS};
use std::collections::HashSet;
use std::io;

/// The offset of the keys in an invokeAll: after length, kind, class number and count.
pub const KEYS_AT: usize = 11;

/// The request in a frame.
#[derive(Debug, PartialEq, Eq)]
pub enum Frame {
    /// A class.
    Define,
    /// The end of a round.
    End,
    /// A put, get, remove or contains.
    Plain,
    /// An invocation of the class with this number.
    Invoke(u32),
    /// An invocation of the class with this number on several keys.
    InvokeAll { class: u32, keys: usize },
}

/// Returns the length in bytes of the frame that begins here, including the length field. Returns
/// `None` if it hasn't fully arrived, and an error if its length is 0 or too large.
pub fn frame_length(input: &[u8]) -> io::Result<Option<usize>> {
    if input.len() < 4 {
        return Ok(None);
    }
    let length = number_at(input, 0) as usize;
    if !(1..=LONGEST).contains(&length) {
        return Err(io::ErrorKind::InvalidData.into());
    }
    Ok(if input.len() < 4 + length { None } else { Some(4 + length) })
}

/// Returns the number in the four bytes at this offset, which must exist.
pub fn number_at(text: &[u8], at: usize) -> u32 {
    u32::from_be_bytes([text[at], text[at + 1], text[at + 2], text[at + 3]])
}

/// Returns the end of the arguments that begin here, or `None` if they are invalid.
fn arguments_end(text: &[u8], at: usize) -> Option<usize> {
    let count = *text.get(at)?;
    if usize::from(count) > MOST_ARGUMENTS {
        return None;
    }
    let mut at = at + 1;
    for _ in 0..count {
        at += match *text.get(at)? {
            NULL | FALSE | TRUE => 1,
            LONG => 9,
            INTEGER => 5,
            _ => return None,
        };
    }
    Some(at)
}

/// Validates a whole frame. Returns `None` if it isn't a valid request.
pub fn judge(text: &[u8]) -> Option<Frame> {
    let length = text.len();
    match (*text.get(4)?, length) {
        (DEFINE, _) => Some(Frame::Define),
        (END, 5) => Some(Frame::End),
        (PUT, 21) | (GET..=CONTAINS, 13) => Some(Frame::Plain),
        (INVOKE, 18..) if arguments_end(text, 17)? == length => {
            Some(Frame::Invoke(number_at(text, 5)))
        }
        (INVOKE_ALL, 12..) => {
            let count = usize::from(u16::from_be_bytes([text[9], text[10]]));
            if arguments_end(text, KEYS_AT + 8 * count)? != length {
                return None;
            }
            Some(Frame::InvokeAll { class: number_at(text, 5), keys: count })
        }
        _ => None,
    }
}

/// Removes the duplicate keys of an invokeAll, and returns the number of the remaining ones: the
/// server runs each key once, and replies to it at its first position.
pub fn remove_duplicates(text: &mut Vec<u8>, count: usize) -> usize {
    let end = KEYS_AT + 8 * count;
    let mut seen = HashSet::with_capacity(count);
    let kept: Vec<u8> =
        text[KEYS_AT..end].chunks(8).filter(|key| seen.insert(*key)).flatten().copied().collect();
    let keys = kept.len() / 8;
    if keys < count {
        text.splice(KEYS_AT..end, kept);
        let length = text.len() - 4;
        text[..4].copy_from_slice(&(length as u32).to_be_bytes());
        text[9..11].copy_from_slice(&(keys as u16).to_be_bytes());
    }
    keys
}

/// Replaces the connection's class number by the server's.
pub fn set_class(text: &mut [u8], number: u32) {
    text[5..9].copy_from_slice(&number.to_be_bytes());
}

#[cfg(test)]
mod tests {
    use super::*;

    fn framed(body: &[u8]) -> Vec<u8> {
        let mut text = (body.len() as u32).to_be_bytes().to_vec();
        text.extend_from_slice(body);
        text
    }

    fn judged(body: &[u8]) -> Option<Frame> {
        judge(&framed(body))
    }

    #[test]
    fn a_frame_has_arrived_with_its_end() {
        let text = [framed(&[8]), framed(&[3; 9])].concat();
        for end in 0..text.len() {
            assert_eq!(
                frame_length(&text[..end]).ok(),
                Some(if end < 5 { None } else { Some(5) }),
                "a beginning of {} bytes",
                end
            );
        }
        assert_eq!(frame_length(&text[5..]).ok(), Some(Some(13)));
        assert_eq!(frame_length(&[0, 2, 0, 0]).ok(), Some(None));
        assert!(frame_length(&[0, 2, 0, 1]).is_err());
        assert!(frame_length(&[0, 0, 0, 0]).is_err());
    }

    #[test]
    fn requests_are_known_by_kind_and_length() {
        assert_eq!(judged(&[1]), Some(Frame::Define));
        assert_eq!(judged(&[8]), Some(Frame::End));
        assert_eq!(judged(&[8, 0]), None);
        for kind in [3, 4, 5] {
            let mut body = vec![0; 9];
            body[0] = kind;
            assert_eq!(judged(&body), Some(Frame::Plain));
            body.push(0);
            assert_eq!(judged(&body), None);
        }
        assert_eq!(judged(&[0]), None);
        assert_eq!(judged(&[9]), None);
    }

    #[test]
    fn arguments_have_to_fill_the_frame() {
        let mut body = vec![6, 0, 0, 0, 5];
        body.extend_from_slice(&[0; 8]);
        body.extend_from_slice(&[3, 0, 2, 0, 0, 0, 1, 1, 0, 0, 0, 0, 0, 0, 0, 1]);
        assert_eq!(judged(&body), Some(Frame::Invoke(5)));
        for end in 0..body.len() {
            assert_eq!(judged(&body[..end]), None, "a beginning of {} bytes", end);
        }
        body.push(0);
        assert_eq!(judged(&body), None);
    }

    #[test]
    fn each_kind_of_argument_has_its_length() {
        let kinds: [&[u8]; 6] =
            [&[0], &[1, 0, 0, 0, 0, 0, 0, 0, 9], &[2, 0, 0, 0, 9], &[3], &[4], &[5]];
        for argument in kinds {
            let mut body = vec![6, 0, 0, 0, 5];
            body.extend_from_slice(&[0; 8]);
            body.push(2);
            body.extend_from_slice(argument);
            assert_eq!(judged(&body), None, "one argument of two");
            body.push(0);
            let wanted = if argument == [5] { None } else { Some(Frame::Invoke(5)) };
            assert_eq!(judged(&body), wanted, "an argument of the kind {}", argument[0]);
        }
    }

    #[test]
    fn duplicates_are_removed_and_first_positions_stay() {
        let mut body = vec![7, 0, 0, 0, 2, 0, 4];
        for key in [9u64, 3, 9, 3] {
            body.extend_from_slice(&key.to_be_bytes());
        }
        body.extend_from_slice(&[1, 0]);
        let mut text = framed(&body);
        assert_eq!(judge(&text), Some(Frame::InvokeAll { class: 2, keys: 4 }));
        assert_eq!(remove_duplicates(&mut text, 4), 2);
        let mut wanted = vec![7, 0, 0, 0, 2, 0, 2];
        wanted.extend_from_slice(&9u64.to_be_bytes());
        wanted.extend_from_slice(&3u64.to_be_bytes());
        wanted.extend_from_slice(&[1, 0]);
        assert_eq!(text, framed(&wanted));
    }

    #[test]
    fn a_count_beyond_the_frame_is_no_request() {
        assert_eq!(judged(&[7, 0, 0, 0, 0, 0xff, 0xff, 0]), None);
        assert_eq!(judged(&[7, 0, 0, 0, 0, 0, 0, 0]), Some(Frame::InvokeAll { class: 0, keys: 0 }));
    }
}
