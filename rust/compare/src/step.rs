//! One step of a case: a call of the C interface, or a change by hand between two calls.
//!
//! A step is written as one line in the input syntax of `desk shell`, a call with the notch closed
//! as three: the notch is closed before it and opened behind it. The shell hands a closed notch on
//! as 1, so another number stands in a comment.

use std::fmt::{self, Display, Formatter};

use model::image::Kind;
use model::Request;

/// Words of a table of channels.
pub const TABLE: usize = 40;

/// The bytes that a call is lent.
#[derive(Clone, Debug, PartialEq, Eq)]
pub enum Buffer {
    /// So many bytes of one value.
    Fill(usize, u8),
    Bytes(Vec<u8>),
}

impl Buffer {
    pub fn bytes(&self) -> Vec<u8> {
        match self {
            Buffer::Fill(length, value) => vec![*value; *length],
            Buffer::Bytes(bytes) => bytes.clone(),
        }
    }

    pub fn len(&self) -> usize {
        match self {
            Buffer::Fill(length, _) => *length,
            Buffer::Bytes(bytes) => bytes.len(),
        }
    }

    pub fn is_empty(&self) -> bool {
        self.len() == 0
    }

    /// Its first bytes.
    pub fn cut(&self, length: usize) -> Buffer {
        match self {
            Buffer::Fill(whole, value) => Buffer::Fill(length.min(*whole), *value),
            Buffer::Bytes(bytes) => Buffer::Bytes(bytes[..length.min(bytes.len())].to_vec()),
        }
    }
}

/// A CIO command: what it asks for, and the bytes that it is lent.
#[derive(Clone, Debug, PartialEq, Eq)]
pub struct Cio {
    pub channel: u8,
    pub command: u8,
    pub direction: u8,
    pub name: Vec<u8>,
    pub buffer: Buffer,
}

impl Cio {
    /// A command that needs neither direction nor name nor buffer.
    pub fn new(channel: u8, command: u8) -> Cio {
        Cio {
            channel,
            command,
            direction: 0,
            name: Vec::new(),
            buffer: Buffer::Fill(0, 0),
        }
    }

    /// What a side is asked under a notch, with the bytes that it is lent in this place.
    pub fn request<'a>(&'a self, notch: u8, buffer: &'a mut [u8]) -> Request<'a> {
        Request::new(self.channel, self.command)
            .notch(notch)
            .direction(self.direction)
            .name(&self.name)
            .buffer(buffer)
    }
}

/// A call of the C interface.
#[derive(Clone, Debug, PartialEq, Eq)]
pub enum Call {
    Cio(Cio),
    Recover {
        slot: u8,
    },
    Sector {
        device: u8,
        unit: u8,
        command: u8,
        sector: u16,
        buffer: Buffer,
    },
    Show {
        slot: u8,
        sector: u16,
    },
    ThinGet {
        words: Vec<u16>,
        buffer: Buffer,
    },
    ThinPut {
        words: Vec<u16>,
        buffer: Buffer,
    },
    Name {
        name: Vec<u8>,
        eleven: Buffer,
    },
    Header,
}

impl Call {
    /// The lent bytes, the eleven of a name included.
    pub fn buffer(&self) -> Option<&Buffer> {
        match self {
            Call::Cio(Cio { buffer, .. })
            | Call::Sector { buffer, .. }
            | Call::ThinGet { buffer, .. }
            | Call::ThinPut { buffer, .. }
            | Call::Name { eleven: buffer, .. } => Some(buffer),
            Call::Recover { .. } | Call::Show { .. } | Call::Header => None,
        }
    }

    /// The name that the call is lent, whether it looks at it or not; else no bytes.
    pub fn name(&self) -> &[u8] {
        match self {
            Call::Cio(Cio { name, .. }) | Call::Name { name, .. } => name,
            _ => &[],
        }
    }

    /// The lent record of a thin call, else no words.
    pub fn words(&self) -> &[u16] {
        match self {
            Call::ThinGet { words, .. } | Call::ThinPut { words, .. } => words,
            _ => &[],
        }
    }

    /// The same call with other bytes lent.
    pub fn with_buffer(&self, other: Buffer) -> Call {
        let mut call = self.clone();
        match &mut call {
            Call::Cio(Cio { buffer, .. })
            | Call::Sector { buffer, .. }
            | Call::ThinGet { buffer, .. }
            | Call::ThinPut { buffer, .. }
            | Call::Name { eleven: buffer, .. } => *buffer = other,
            Call::Recover { .. } | Call::Show { .. } | Call::Header => (),
        }
        call
    }

    /// The same call with another name, if it is lent one.
    pub fn with_name(&self, other: Vec<u8>) -> Call {
        let mut call = self.clone();
        if let Call::Cio(Cio { name, .. }) | Call::Name { name, .. } = &mut call {
            *name = other;
        }
        call
    }
}

/// The lengths at which the image and the table are lent.
#[derive(Clone, Copy, Debug, PartialEq, Eq)]
pub struct Lengths {
    pub image: usize,
    pub table: usize,
}

impl Lengths {
    /// Those of an image of the kind and a table of channels.
    pub fn of(kind: Kind) -> Lengths {
        Lengths {
            image: kind.length(),
            table: TABLE,
        }
    }
}

/// One step of a case.
#[derive(Clone, Debug, PartialEq, Eq)]
pub enum Step {
    /// A fresh disk, and all channels closed: where every case begins.
    Fresh(Kind),
    /// One byte of a sector is set; those of sector 0 are the header.
    Poke { sector: u16, byte: u8, value: u8 },
    /// The record of one channel is set.
    Channel { number: u8, record: [u16; 5] },
    Call {
        call: Call,
        /// 0 is open, any other value closed. Calls that cannot change an image do not take it.
        notch: u8,
        /// Those of image and table, where no others are given.
        lengths: Option<Lengths>,
    },
}

impl From<Call> for Step {
    /// The call with the notch open.
    fn from(call: Call) -> Step {
        Step::Call {
            call,
            notch: 0,
            lengths: None,
        }
    }
}

impl Display for Step {
    fn fmt(&self, out: &mut Formatter) -> fmt::Result {
        match self {
            Step::Fresh(Kind::Raw) => write!(out, "fresh"),
            Step::Fresh(Kind::AtrSingle) => write!(out, "fresh atr"),
            Step::Fresh(Kind::AtrDouble) => write!(out, "fresh double"),
            Step::Poke {
                sector,
                byte,
                value,
            } => write!(out, "poke {sector} {byte} {value}"),
            Step::Channel { number, record } => write!(out, "channel {number} {}", words(record)),
            Step::Call {
                call,
                notch,
                lengths,
            } => {
                if *notch > 1 {
                    writeln!(out, "# notch {notch}")?;
                }
                if *notch > 0 {
                    writeln!(out, "notch closed")?;
                }
                if let Some(Lengths { image, table }) = lengths {
                    write!(out, "lent {image} {table} ")?;
                }
                write!(out, "{call}")?;
                if *notch > 0 {
                    write!(out, "\nnotch open")?;
                }
                Ok(())
            }
        }
    }
}

impl Display for Call {
    fn fmt(&self, out: &mut Formatter) -> fmt::Result {
        match self {
            Call::Cio(Cio {
                channel,
                command,
                direction,
                name,
                ..
            }) => write!(out, "cio {channel} {command} {direction} {}", quoted(name)),
            Call::Recover { slot } => write!(out, "recover {slot}"),
            Call::Sector {
                device,
                unit,
                command,
                sector,
                ..
            } => write!(out, "sector {device} {unit} {command} {sector}"),
            Call::Show { slot, sector } => write!(out, "show {slot} {sector}"),
            Call::ThinGet { words: record, .. } => write!(out, "thin-get {}", words(record)),
            Call::ThinPut { words: record, .. } => write!(out, "thin-put {}", words(record)),
            Call::Name { name, .. } => write!(out, "name {}", quoted(name)),
            Call::Header => write!(out, "header"),
        }?;
        match self.buffer() {
            Some(buffer) => write!(out, " {buffer}"),
            None => Ok(()),
        }
    }
}

impl Display for Buffer {
    fn fmt(&self, out: &mut Formatter) -> fmt::Result {
        match self {
            Buffer::Fill(0, _) => write!(out, "-"),
            Buffer::Fill(length, value) => write!(out, "{length}*{value:02x}"),
            Buffer::Bytes(bytes) if bytes.is_empty() => write!(out, "-"),
            Buffer::Bytes(bytes) => bytes.iter().try_for_each(|byte| write!(out, "{byte:02x}")),
        }
    }
}

/// A name in quotes, with escapes for all but plain characters.
fn quoted(name: &[u8]) -> String {
    let mut text = String::from("\"");
    for &byte in name {
        match byte {
            b'"' | b'\\' => text.push_str(&format!("\\x{byte:02x}")),
            b' '..=b'~' => text.push(byte.into()),
            _ => text.push_str(&format!("\\x{byte:02x}")),
        }
    }
    text + "\""
}

fn words(words: &[u16]) -> String {
    words
        .iter()
        .map(u16::to_string)
        .collect::<Vec<_>>()
        .join(" ")
}

#[cfg(test)]
mod tests {
    use super::*;

    #[test]
    fn lines_of_the_shell() {
        let cio = |name: &[u8], buffer| {
            let cio = Cio {
                name: name.to_vec(),
                buffer,
                ..Cio::new(1, 11)
            };
            Step::from(Call::Cio(cio)).to_string()
        };
        assert_eq!(
            cio(b"D:A\x9b", Buffer::Fill(0, 9)),
            r#"cio 1 11 0 "D:A\x9b" -"#
        );
        assert_eq!(
            cio(b"D:A  B \0", Buffer::Fill(0, 9)),
            r#"cio 1 11 0 "D:A  B \x00" -"#
        );
        assert_eq!(
            cio(b"\"\\", Buffer::Fill(3, 10)),
            r#"cio 1 11 0 "\x22\x5c" 3*0a"#
        );
        assert_eq!(
            cio(b"", Buffer::Bytes(vec![0, 255])),
            r#"cio 1 11 0 "" 00ff"#
        );
        assert_eq!(
            Step::Poke {
                sector: 4,
                byte: 127,
                value: 9
            }
            .to_string(),
            "poke 4 127 9"
        );
        let lengths = Some(Lengths {
            image: 92_161,
            table: 39,
        });
        let recover = |notch, lengths| Step::Call {
            call: Call::Recover { slot: 3 },
            notch,
            lengths,
        };
        assert_eq!(recover(0, lengths).to_string(), "lent 92161 39 recover 3");
        assert_eq!(
            recover(1, lengths).to_string(),
            "notch closed\nlent 92161 39 recover 3\nnotch open"
        );
        assert_eq!(
            recover(255, None).to_string(),
            "# notch 255\nnotch closed\nrecover 3\nnotch open"
        );
        assert_eq!(Step::from(Call::Header).to_string(), "header");
        assert_eq!(
            Kind::ALL.map(|kind| Step::Fresh(kind).to_string()),
            ["fresh", "fresh atr", "fresh double"]
        );
        let record = [1, 2, 3, 4, 5];
        assert_eq!(
            Step::Channel { number: 7, record }.to_string(),
            "channel 7 1 2 3 4 5"
        );
    }
}
