//! Bytes for a person to read.

use std::io::{self, Write};

/// Prints sixteen bytes to a line: their offset, in hexadecimal, and as characters.
pub fn dump(bytes: &[u8], out: &mut dyn Write) -> io::Result<()> {
    for (line, part) in bytes.chunks(16).enumerate() {
        let hex: Vec<String> = part.iter().map(|byte| format!("{byte:02X}")).collect();
        let text: String = part
            .iter()
            .map(|&byte| {
                if (b' '..=b'~').contains(&byte) {
                    byte as char
                } else {
                    '.'
                }
            })
            .collect();
        writeln!(out, "  {:04X}  {:<47}  {text}", 16 * line, hex.join(" "))?;
    }
    Ok(())
}

#[cfg(test)]
mod tests {
    use super::*;

    #[test]
    fn sixteen_to_a_line() {
        let mut out = Vec::new();
        dump(b"0123456789abcdef\x9B!", &mut out).unwrap();
        let expected =
            "  0000  30 31 32 33 34 35 36 37 38 39 61 62 63 64 65 66  0123456789abcdef\n  \
                        0010  9B 21                                            .!\n";
        assert_eq!(String::from_utf8(out).unwrap(), expected);
    }
}
