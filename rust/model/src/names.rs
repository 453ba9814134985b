//! "Commands": names, and what is legal in a slot.
//!
//! A name is `D:` or `Dn:`, then a letter and up to seven letters or digits, then optionally a
//! point and up to three letters or digits; capitals only; ended by 0 or `$9B`, and by request P5
//! by a blank too. What follows the ending byte is not looked at.

use crate::directory::Name;
use crate::fault::{Fault, Variant};
use crate::status::{Outcome, Status, Stop};
use crate::Model;

/// The bytes that end a name.
const fn is_ending(byte: u8) -> bool {
    matches!(byte, 0 | 0x9b | b' ')
}

/// The bytes that a name is made of.
const fn is_name_byte(byte: u8) -> bool {
    matches!(byte, b'A'..=b'Z' | b'0'..=b'9')
}

impl<V: Variant> Model<V> {
    /// Takes off the device. No `D`, or no colon behind it or behind one digit, is 130; a digit
    /// other than 1 is 160.
    fn behind_device(self, name: &[u8]) -> Result<&[u8], Status> {
        match name {
            [b'D', b':', rest @ ..] | [b'D', b'1', b':', rest @ ..] => Ok(rest),
            [b'D', b'0'..=b'9', b':', ..] if !self.wrong(Fault::OtherDriveNoDevice) => {
                Err(Status::NoSuchDrive)
            }
            _ => Err(Status::NoSuchDevice),
        }
    }

    /// Pads the text of a file name to its eleven bytes.
    fn eleven(self, text: &[u8]) -> Result<Name, Status> {
        let (stem, extension) = match text.iter().position(|&byte| byte == b'.') {
            Some(point) => (&text[..point], &text[point + 1..]),
            None => (text, &[][..]),
        };
        let stem = match stem {
            [first @ .., _] if self.wrong(Fault::NinthLetter) && stem.len() == 9 => first,
            _ => stem,
        };
        let begins = match stem.first() {
            Some(byte) => byte.is_ascii_uppercase() || self.wrong(Fault::DigitFirst),
            None => false,
        };
        if !begins || stem.len() > 8 || extension.len() > 3 {
            return Err(Status::WrongName);
        }
        if !stem.iter().chain(extension).all(|&byte| is_name_byte(byte)) {
            return Err(Status::WrongName);
        }
        let mut name = [b' '; 11];
        name[..stem.len()].copy_from_slice(stem);
        name[8..8 + extension.len()].copy_from_slice(extension);
        Ok(name)
    }

    /// The text up to its ending byte, and the bytes from there on. A model with the fault
    /// `no_blank` takes no blank for an ending byte.
    fn ended(self, bytes: &[u8], no_blank: Fault) -> Result<(&[u8], &[u8]), Status> {
        let end = match bytes.iter().position(|&byte| is_ending(byte)) {
            Some(end) => end,
            None if self.wrong(Fault::NoEndingByte) => bytes.len(),
            None => return Err(Status::WrongName),
        };
        let (text, behind) = bytes.split_at(end);
        if self.refuses_blank(text, behind, no_blank) {
            return Err(Status::WrongName);
        }
        Ok((text, behind))
    }

    /// Whether a text ends in a blank, and this model is wrong about it.
    fn refuses_blank(self, text: &[u8], behind: &[u8], no_blank: Fault) -> bool {
        behind.starts_with(b" ")
            && (self.wrong(no_blank)
                || self.wrong(Fault::BlankBehindPoint) && text.ends_with(b".")
                || self.wrong(Fault::LongPadding) && blanks(behind) > 255
                || self.wrong(Fault::BlanksPadOnly) && !pads_only(behind))
    }

    /// The text of the name of one file, and the bytes from its ending byte on.
    fn file_text(self, name: &[u8]) -> Result<(&[u8], &[u8]), Status> {
        self.ended(self.behind_device(name)?, Fault::BlankEndsNoName)
    }

    /// The eleven bytes of the name of one file, from what [`Self::file_text`] gives.
    fn file_eleven(self, text: &[u8], behind: &[u8]) -> Result<Name, Status> {
        if self.wrong(Fault::BlanksPassedOver) {
            return self.eleven(&without_blanks(&[text, behind].concat()));
        }
        self.eleven(text)
    }

    /// The name of one file.
    pub(crate) fn file_name(self, name: &[u8]) -> Result<Name, Status> {
        let (text, behind) = self.file_text(name)?;
        self.file_eleven(text, behind)
    }

    /// The two names of `D:OLD,NEW`. The first ends at the comma only, the second, which has no
    /// device, as names do.
    pub(crate) fn two_names(self, names: &[u8]) -> Result<(Name, Name), Status> {
        let names = self.behind_device(names)?;
        let comma = names
            .iter()
            .position(|&byte| byte == b',')
            .ok_or(Status::WrongName)?;
        let mut old = &names[..comma];
        if self.wrong(Fault::BlankEndsFirstName) {
            old = old.split(|&byte| byte == b' ').next().unwrap_or(old);
        }
        let old = self.eleven(old)?;
        let (new, _) = self.ended(&names[comma + 1..], Fault::BlankEndsNoSecondName)?;
        let mut new = self.eleven(new)?;
        if self.wrong(Fault::ZeroPadding) {
            new.iter_mut()
                .filter(|byte| **byte == b' ')
                .for_each(|byte| *byte = 0);
        }
        Ok((old, new))
    }

    /// `D:` alone, as format takes it.
    pub(crate) fn device_alone(self, name: &[u8]) -> Result<(), Status> {
        match self.behind_device(name)? {
            [b' ', ..] if self.wrong(Fault::BlankEndsNoDevice) => Err(Status::WrongName),
            rest @ [b' ', ..] if self.wrong(Fault::DevicePaddedOnly) && !pads_only(rest) => {
                Err(Status::WrongName)
            }
            [end, ..] if is_ending(*end) => Ok(()),
            _ => Err(Status::WrongName),
        }
    }

    /// The call that takes a name apart; its count is the place of the ending byte. The eleven
    /// bytes stay as they were with a refusal.
    pub(crate) fn run_name(self, name: &[u8], eleven: &mut [u8]) -> Outcome {
        let eleven: &mut Name = eleven.try_into().map_err(|_| Status::Malformed)?;
        if self.wrong(Fault::RefusedNameWritten) {
            *eleven = [b' '; 11];
        }
        let refused = |status| self.refused_name(name, status);
        let (text, behind) = self.file_text(name).map_err(refused)?;
        *eleven = self.file_eleven(text, behind).map_err(refused)?;
        Ok(self.place(name, text, behind))
    }

    /// A refused name reports no place.
    fn refused_name(self, name: &[u8], status: Status) -> Stop {
        let mut stop = Stop::from(status);
        if self.wrong(Fault::RefusedNamePlace) {
            let end = name.iter().position(|&byte| is_ending(byte));
            stop.count = end.unwrap_or_default();
        }
        stop
    }

    /// The place of the ending byte, counted from 0 at the `D`.
    fn place(self, name: &[u8], text: &[u8], behind: &[u8]) -> usize {
        let place = name.len() - behind.len();
        if self.wrong(Fault::PlaceBehindEnding) {
            return place + 1;
        }
        if self.wrong(Fault::PlaceFromText) {
            return text.len();
        }
        if self.wrong(Fault::PlaceOfLastBlank) {
            return place + blanks(behind).saturating_sub(1);
        }
        if self.wrong(Fault::PlaceBehindPadding) && pads_only(behind) {
            return place + blanks(behind);
        }
        place
    }
}

/// How many blanks the bytes begin with.
fn blanks(bytes: &[u8]) -> usize {
    bytes.iter().take_while(|&&byte| byte == b' ').count()
}

/// Behind their blanks the bytes are at their end, or 0 or `$9B` follows.
fn pads_only(bytes: &[u8]) -> bool {
    matches!(bytes[blanks(bytes)..], [] | [0 | 0x9b, ..])
}

/// The bytes up to 0, `$9B` or their end, without the blanks among them.
fn without_blanks(bytes: &[u8]) -> Vec<u8> {
    let text = bytes.iter().take_while(|byte| !matches!(byte, 0 | 0x9b));
    text.copied().filter(|&byte| byte != b' ').collect()
}

/// The eleven bytes are those that some name gives: a letter first, and blanks only behind
/// letters and digits in each of the two fields.
pub fn is_legal(name: &Name) -> bool {
    let (stem, extension) = name.split_at(8);
    stem[0].is_ascii_uppercase() && is_padded(stem) && is_padded(extension)
}

/// Letters and digits, then blanks.
fn is_padded(field: &[u8]) -> bool {
    let length = field.iter().take_while(|&&byte| is_name_byte(byte)).count();
    field[length..].iter().all(|&byte| byte == b' ')
}
