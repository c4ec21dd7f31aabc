//! Bytes in hexadecimal, for people.

use std::fmt::Write;

const BYTES_IN_A_LINE: usize = 16;

/// Lines of 16 bytes with their place before them and their letters after them.
pub fn dump(bytes: &[u8]) -> String {
    let mut text = String::new();
    for (i, line) in bytes.chunks(BYTES_IN_A_LINE).enumerate() {
        let _ = write!(text, "{:04x} ", i * BYTES_IN_A_LINE);
        for byte in line {
            let _ = write!(text, " {byte:02x}");
        }
        let letters: String = line.iter().map(|byte| letter(*byte)).collect();
        let _ = writeln!(text, "  {letters}");
    }
    text
}

fn letter(byte: u8) -> char {
    if byte == b' ' || byte.is_ascii_graphic() {
        char::from(byte)
    } else {
        '.'
    }
}

#[cfg(test)]
mod tests {
    #[test]
    fn a_line_has_place_bytes_and_letters() {
        let text = super::dump(b"\x00\xffcard 0123456789A");
        let mut lines = text.lines();
        let first = "0000  00 ff 63 61 72 64 20 30 31 32 33 34 35 36 37 38  ..card 012345678";
        assert_eq!(lines.next(), Some(first));
        assert_eq!(lines.next(), Some("0010  39 41  9A"));
        assert_eq!(lines.next(), None);
    }
}
