//! The name of the class in a class file (JVMS SE 8, section 4.1), for the log and the page. The
//! file may be anything that a client sends.

/// The maximum number of characters of a name that are shown.
const SHOWN: usize = 120;

/// The offset of the constant pool's count.
const POOL_COUNT_AT: usize = 8;

fn u2(file: &[u8], at: usize) -> Option<usize> {
    let bytes = file.get(at..at + 2)?;
    Some(usize::from(u16::from_be_bytes([bytes[0], bytes[1]])))
}

/// Returns the length of the constant at this offset and the number of its indices.
fn constant(file: &[u8], at: usize) -> Option<(usize, usize)> {
    Some(match file.get(at)? {
        1 => (3 + u2(file, at + 1)?, 1),
        3 | 4 | 9..=12 | 18 => (5, 1),
        5 | 6 => (9, 2),
        7 | 8 | 16 => (3, 1),
        15 => (4, 1),
        _ => return None,
    })
}

/// Returns the offsets of the constants by index, and the offset after the pool.
fn pool(file: &[u8]) -> Option<(Vec<usize>, usize)> {
    let count = u2(file, POOL_COUNT_AT)?;
    let (mut offsets, mut at) = (vec![0], POOL_COUNT_AT + 2);
    while offsets.len() < count {
        let (length, indices) = constant(file, at)?;
        offsets.push(at);
        offsets.resize(offsets.len() + indices - 1, 0);
        at += length;
    }
    Some((offsets, at))
}

fn find(file: &[u8]) -> Option<String> {
    if !file.starts_with(&[0xca, 0xfe, 0xba, 0xbe]) {
        return None;
    }
    let (offsets, end) = pool(file)?;
    let class = *offsets.get(u2(file, end + 2)?)?;
    if file.get(class) != Some(&7) {
        return None;
    }
    let name = *offsets.get(u2(file, class + 1)?)?;
    if file.get(name) != Some(&1) {
        return None;
    }
    let text = String::from_utf8_lossy(file.get(name + 3..name + 3 + u2(file, name + 1)?)?);
    Some(text.replace('/', ".").chars().take(SHOWN).collect())
}

/// Returns the name of the class in a file, with dots, or `?` if the file has none.
pub fn class_name(file: &[u8]) -> String {
    find(file).unwrap_or_else(|| "?".to_string())
}

#[cfg(test)]
mod tests {
    use super::*;

    const PUT_IF_ABSENT: &[u8] = include_bytes!("../../processors/PutIfAbsent.class");

    #[test]
    fn a_file_has_its_class_name() {
        assert_eq!(class_name(PUT_IF_ABSENT), "jentry.processors.PutIfAbsent");
    }

    #[test]
    fn a_broken_file_has_none() {
        for end in 0..PUT_IF_ABSENT.len() {
            let name = class_name(&PUT_IF_ABSENT[..end]);
            assert!(name == "?" || name == "jentry.processors.PutIfAbsent", "{}", name);
        }
        assert_eq!(class_name(b"<script>"), "?");
        for at in 0..PUT_IF_ABSENT.len() {
            let mut file = PUT_IF_ABSENT.to_vec();
            file[at] = 0xff;
            class_name(&file);
        }
    }
}
