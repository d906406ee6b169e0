//! The name of a class, from its class file (JVMS §4).

/// The tags of the constants that are read, and of those that take two indices.
const UTF8: u8 = 1;
const CLASS: u8 = 7;
const LONG: u8 = 5;
const DOUBLE: u8 = 6;
/// The place of the number of constants, and of the first one.
const COUNT_AT: usize = 8;
const FIRST_AT: usize = 10;

fn two_bytes(bytes: &[u8], at: usize) -> Option<usize> {
    match bytes.get(at..at + 2)? {
        [high, low] => Some(usize::from(*high) << 8 | usize::from(*low)),
        _ => None,
    }
}

/// Returns the length of the constant at a place (JVMS §4.4).
fn length_of(bytes: &[u8], at: usize) -> Option<usize> {
    Some(match *bytes.get(at)? {
        UTF8 => 3 + two_bytes(bytes, at + 1)?,
        LONG | DOUBLE => 9,
        3 | 4 | 9..=12 | 17 | 18 => 5,
        15 => 4,
        _ => 3,
    })
}

/// Returns the places of the constants by their indices, and the place behind the last one.
fn constants(bytes: &[u8]) -> Option<(Vec<usize>, usize)> {
    let count = two_bytes(bytes, COUNT_AT)?;
    let (mut places, mut at) = (vec![0], FIRST_AT);
    while places.len() < count {
        places.push(at);
        if matches!(*bytes.get(at)?, LONG | DOUBLE) {
            places.push(at);
        }
        at += length_of(bytes, at)?;
    }
    Some((places, at))
}

/// Returns the name of the class of an accepted class file, with dots, or `None` if the file isn't one.
pub fn name_of(bytes: &[u8]) -> Option<String> {
    let (places, end) = constants(bytes)?;
    // The access flags come first, then the class.
    let class = *places.get(two_bytes(bytes, end + 2)?)?;
    let name = *places.get(two_bytes(bytes, class + 1)?)?;
    if (bytes.get(class), bytes.get(name)) != (Some(&CLASS), Some(&UTF8)) {
        return None;
    }
    let text = bytes.get(name + 3..name + 3 + two_bytes(bytes, name + 1)?)?;
    Some(String::from_utf8_lossy(text).replace('/', "."))
}
