//! The texts of exceptions: from modified UTF-8 (JVMS §4.4.7) to the end of an error reply, which is one line of UTF-8.

/// The most bytes of a text that a reply has. A command may reply as many exceptions as it names keys.
pub const MOST_TEXT: usize = 1024;

/// Returns the UTF-16 units of modified UTF-8. A byte that begins no character stands for U+FFFD.
fn units_of(bytes: &[u8]) -> Vec<u16> {
    let mut units = Vec::new();
    let mut rest = bytes;
    loop {
        let bits = |byte: u8| u16::from(byte & 0x3f);
        let (unit, length) = match *rest {
            [] => return units,
            [first @ 1..=0x7f, ..] => (first.into(), 1),
            [first @ 0xc0..=0xdf, second @ 0x80..=0xbf, ..] => {
                (u16::from(first & 0x1f) << 6 | bits(second), 2)
            }
            [first @ 0xe0..=0xef, second @ 0x80..=0xbf, third @ 0x80..=0xbf, ..] => {
                (u16::from(first & 0x0f) << 12 | bits(second) << 6 | bits(third), 3)
            }
            _ => (char::REPLACEMENT_CHARACTER as u16, 1),
        };
        units.push(unit);
        rest = rest.get(length..).unwrap_or(&[]);
    }
}

/// Returns the beginning of a text of this length as a part of a line: control characters become spaces, and `..` shows that there is more.
pub fn line_of(bytes: &[u8], length: usize) -> String {
    let characters = char::decode_utf16(units_of(bytes));
    let mut line: String = characters
        .map(|it| it.unwrap_or(char::REPLACEMENT_CHARACTER))
        .map(|it| if it.is_control() { ' ' } else { it })
        .collect();
    if length > bytes.len() {
        // The last character may have been cut off in its middle.
        line.truncate(line.trim_end_matches(char::REPLACEMENT_CHARACTER).len());
        line += "..";
    }
    line
}
