//! Names as the library takes them: with a device before and an ending byte behind.

use crate::{answer::Answer, lines::END_OF_LINE, raw, Status};

/// The bytes to lend for a name, or for two with a comma between them. An ending byte inside, also a blank that does not pad
/// it, would cut the name short: such a name is lent up to there and without an ending byte, so that the library refuses it as
/// malformed, behind all that it looks at before.
pub(crate) fn lent(name: &str) -> Vec<u8> {
    let first = name.split(',').next().unwrap_or(name);
    let device = if first.contains(':') { "" } else { "D:" };
    let ends = |byte| matches!(byte, 0 | END_OF_LINE | b' ');
    let (text, ending): (_, &[u8]) = match name.trim_end_matches(' ').bytes().position(ends) {
        Some(cut) => (&name.as_bytes()[..cut], &[]),
        None => (name.as_bytes(), &[END_OF_LINE]),
    };
    [device.as_bytes(), text, ending].concat()
}

/// The eleven bytes that a name has in the directory: eight of name and three of extension, padded with blanks.
///
/// ```
/// use hilugsaban::{padded_name, Status};
///
/// assert_eq!(padded_name("ENDS.DAT"), Ok(*b"ENDS    DAT"));
/// assert_eq!(padded_name("D1:A"), Ok(*b"A          "));
/// assert_eq!(padded_name("ends.dat"), Err(Status::BadName));
/// assert_eq!(padded_name("D2:A"), Err(Status::BadUnit));
/// ```
pub fn padded_name(name: &str) -> Result<[u8; 11], Status> {
    Ok(read_name(&lent(name))?.padded)
}

/// A name taken apart by [`read_name`].
#[derive(Clone, Copy, PartialEq, Eq, Debug)]
pub struct ReadName {
    /// The eleven bytes that the name has in the directory, see [`padded_name`].
    pub padded: [u8; 11],
    /// The place of the byte that ends the name, counted from 0 at the `D` of its device.
    pub end: usize,
}

/// Takes a name apart that is lent as it is, with its device and its ending byte: 0, $9B or a blank. What follows that byte
/// is not looked at.
///
/// ```
/// use hilugsaban::{read_name, Status};
///
/// let name = read_name(b"D:A.DAT   ")?;
/// assert_eq!((&name.padded, name.end), (b"A       DAT", 7));
/// assert_eq!(read_name(b"D:A B\x9B")?, read_name(b"D:A\x9B")?);
/// assert_eq!(read_name(b"D:A.DAT"), Err(Status::BadName));
/// # Ok::<(), Status>(())
/// ```
pub fn read_name(lent: &[u8]) -> Result<ReadName, Status> {
    let mut padded = [b' '; 11];
    let end = Answer::from_word(raw::name(lent, &mut padded)).ok()?;
    Ok(ReadName { padded, end })
}

#[cfg(test)]
mod tests {
    use super::*;

    #[test]
    fn device_and_ending_are_added() {
        assert_eq!(lent("A.B"), b"D:A.B\x9B");
        assert_eq!(lent("D1:A"), b"D1:A\x9B");
        assert_eq!(lent("A,D:B"), b"D:A,D:B\x9B");
    }

    #[test]
    fn blanks_may_pad() {
        assert_eq!(lent("A.B  "), b"D:A.B  \x9B");
        assert_eq!(lent("D1:A "), b"D1:A \x9B");
        assert_eq!(lent("A,B "), b"D:A,B \x9B");
        assert_eq!(lent("  "), b"D:  \x9B");
    }

    #[test]
    fn no_ending_is_added_to_what_would_be_cut_short() {
        for cut in [
            "A B", "A  .B", "A ,B", "A\0B", "A\0", "A\0 ", "A \0", "A B ",
        ] {
            assert_eq!(lent(cut), b"D:A", "{cut:?}");
        }
        assert_eq!(lent("A,B C"), b"D:A,B");
        assert_eq!(lent("D2: A"), b"D2:");
        assert_eq!(lent("\u{9B}"), b"D:\xC2");
    }
}
