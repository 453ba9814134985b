//! Words, numbers and buffers of the shell's lines.

use std::num::IntErrorKind;

/// The longest buffer that a line may ask for.
const LONGEST: usize = 1 << 20;

/// A word of a line: its bytes, and whether it stood in quotes.
#[derive(Clone, PartialEq, Eq, Debug)]
pub struct Word {
    pub bytes: Vec<u8>,
    pub quoted: bool,
}

impl Word {
    /// The word as text.
    pub fn text(&self) -> Result<&str, String> {
        std::str::from_utf8(&self.bytes).map_err(|_| "not a word of plain characters".to_string())
    }
}

/// Cuts a line into words at blanks. A word in quotes may have blanks, and takes \xNN, \\ and \" as single bytes.
pub fn words(line: &str) -> Result<Vec<Word>, String> {
    let mut words = Vec::new();
    let mut rest = line.trim();
    while !rest.is_empty() {
        let (word, behind) = match rest.strip_prefix('"') {
            Some(quoted) => quoted_word(quoted)?,
            None => bare_word(rest),
        };
        words.push(word);
        rest = behind.trim_start();
    }
    Ok(words)
}

fn bare_word(text: &str) -> (Word, &str) {
    let end = text.find(char::is_whitespace).unwrap_or(text.len());
    (
        Word {
            bytes: text[..end].into(),
            quoted: false,
        },
        &text[end..],
    )
}

/// The word behind an opening quote, and what follows the closing one.
fn quoted_word(text: &str) -> Result<(Word, &str), String> {
    let mut bytes = Vec::new();
    let mut rest = text;
    loop {
        let next = rest.chars().next().ok_or("a quote is not closed")?;
        let behind = &rest[next.len_utf8()..];
        rest = match next {
            '"' => {
                return Ok((
                    Word {
                        bytes,
                        quoted: true,
                    },
                    behind,
                ))
            }
            '\\' => escape(behind, &mut bytes)?,
            _ => {
                bytes.extend(&rest.as_bytes()[..next.len_utf8()]);
                behind
            }
        };
    }
}

/// Adds the byte that an escape stands for; returns what follows it.
fn escape<'a>(text: &'a str, bytes: &mut Vec<u8>) -> Result<&'a str, String> {
    if let Some(digits) = text.strip_prefix('x') {
        let pair = digits
            .get(..2)
            .ok_or("two hexadecimal digits must follow \\x")?;
        bytes.extend(hexadecimal(pair)?);
        return Ok(&digits[2..]);
    }
    match text.as_bytes().first() {
        Some(&byte @ (b'\\' | b'"')) => {
            bytes.push(byte);
            Ok(&text[1..])
        }
        _ => Err("only \\xNN, \\\\ and \\\" may follow a backslash".into()),
    }
}

/// A number: decimal, or hexadecimal behind $ or 0x.
pub fn number<T: TryFrom<u32>>(text: &str) -> Result<T, String> {
    let value = match text.strip_prefix('$').or_else(|| text.strip_prefix("0x")) {
        Some(digits) if !digits.starts_with('+') => u32::from_str_radix(digits, 16),
        _ if text.starts_with('+') => return Err(format!("{text}: not a number")),
        _ => text.parse(),
    };
    let too_large = || format!("{text}: too large");
    let value = value.map_err(|error| match error.kind() {
        IntErrorKind::PosOverflow => too_large(),
        _ => format!("{text}: not a number"),
    })?;
    T::try_from(value).map_err(|_| too_large())
}

/// A word that is a number.
pub fn value<T: TryFrom<u32>>(word: &Word) -> Result<T, String> {
    number(word.text()?)
}

/// A buffer: N*XX (N bytes of value XX), hexadecimal digits, - for none, or text in quotes.
pub fn buffer(word: &Word) -> Result<Vec<u8>, String> {
    if word.quoted {
        return Ok(word.bytes.clone());
    }
    let text = word.text()?;
    if text == "-" {
        return Ok(Vec::new());
    }
    let Some((count, value)) = text.split_once('*') else {
        return hexadecimal(text);
    };
    let count = length(count)?;
    match hexadecimal(value)?[..] {
        [value] => Ok(vec![value; count]),
        _ => Err(format!("{text}: one byte must follow *")),
    }
}

/// A number of bytes.
pub fn length(text: &str) -> Result<usize, String> {
    let length = number::<u32>(text)? as usize;
    if length > LONGEST {
        return Err(format!("{text}: more than {LONGEST} bytes"));
    }
    Ok(length)
}

fn hexadecimal(text: &str) -> Result<Vec<u8>, String> {
    let digits: Option<Vec<u32>> = text.chars().map(|digit| digit.to_digit(16)).collect();
    match digits {
        Some(digits) if digits.len() % 2 == 0 && !digits.is_empty() => Ok(digits
            .chunks_exact(2)
            .map(|pair| (16 * pair[0] + pair[1]) as u8)
            .collect()),
        _ => Err(format!("{text}: not pairs of hexadecimal digits")),
    }
}

#[cfg(test)]
mod tests {
    use super::*;

    fn bare(text: &str) -> Word {
        Word {
            bytes: text.into(),
            quoted: false,
        }
    }

    fn quoted(bytes: &[u8]) -> Word {
        Word {
            bytes: bytes.into(),
            quoted: true,
        }
    }

    #[test]
    fn lines_are_cut_into_words() {
        let expected = vec![bare("cio"), bare("0"), quoted(b"D:A\x9B \"\\"), bare("-")];
        assert_eq!(words(r#" cio 0	"D:A\x9b \"\\" - "#), Ok(expected));
        assert_eq!(
            words(r#""" "Ä""#),
            Ok(vec![quoted(b""), quoted("Ä".as_bytes())])
        );
        assert_eq!(words("  "), Ok(vec![]));
        for wrong in [
            r#"""#,
            r#""a\"#,
            r#""\n""#,
            r#""\x9""#,
            r#""\x9Ä""#,
            r#""\xgg""#,
        ] {
            assert!(words(wrong).is_err(), "{wrong}");
        }
    }

    #[test]
    fn numbers_are_decimal_or_hexadecimal() {
        assert_eq!(number::<u16>("720"), Ok(720));
        assert_eq!(number::<u16>("$2D0"), Ok(720));
        assert_eq!(number::<u16>("0x2d0"), Ok(720));
        for large in ["256", "65536", "4294967296", "$100000000"] {
            assert_eq!(number::<u8>(large), Err(format!("{large}: too large")));
        }
        for wrong in ["", "-1", "+1", "$", "$+1", "0x", "1x"] {
            assert_eq!(number::<u32>(wrong), Err(format!("{wrong}: not a number")));
        }
    }

    #[test]
    fn buffers_are_repeated_bytes_digits_text_or_nothing() {
        assert_eq!(buffer(&bare("3*9B")), Ok(vec![0x9B; 3]));
        assert_eq!(buffer(&bare("0*00")), Ok(vec![]));
        assert_eq!(buffer(&bare("00ff")), Ok(vec![0, 255]));
        assert_eq!(buffer(&bare("-")), Ok(vec![]));
        assert_eq!(buffer(&quoted(b"-")), Ok(b"-".to_vec()));
        for wrong in ["", "0", "xx", "3*", "3*9", "3*9B9B", "*00", "9999999*00"] {
            assert!(buffer(&bare(wrong)).is_err(), "{wrong}");
        }
    }
}
