//! The table of eight channels, as the library takes it: five words a channel.

/// Channels of a table.
pub const CHANNELS: u8 = 8;

/// The kind of a closed channel.
pub const CLOSED: u16 = 0;

/// The kind of a channel that reads a file.
pub const READING: u16 = 1;

/// The kind of a channel that writes a file.
pub const WRITING: u16 = 2;

/// Words of one channel.
const WORDS: usize = 5;

/// One channel. Any values may be lent: the library tests them against the disk at each get and put.
#[derive(Clone, Copy, PartialEq, Eq, Debug, Default)]
pub struct Channel {
    /// [`CLOSED`], [`READING`] or [`WRITING`]; any other is refused with 255.
    pub kind: u16,
    /// The directory slot of its file.
    pub slot: u16,
    /// Reading: the last sector entered, 0 before the first. Writing: the file's last sector.
    pub sector: u16,
    /// Reading: bytes of that sector already handed out.
    pub offset: u16,
    /// Reading: sectors yet to enter.
    pub left: u16,
}

impl Channel {
    /// A channel before the first byte of the file in a slot, with so many sectors to enter.
    pub fn reading(slot: u16, left: u16) -> Channel {
        Channel {
            kind: READING,
            slot,
            sector: 0,
            offset: 0,
            left,
        }
    }

    /// Its words in the library's order.
    pub fn words(self) -> [u16; WORDS] {
        [self.kind, self.slot, self.sector, self.offset, self.left]
    }
}

impl From<[u16; WORDS]> for Channel {
    fn from([kind, slot, sector, offset, left]: [u16; WORDS]) -> Channel {
        Channel {
            kind,
            slot,
            sector,
            offset,
            left,
        }
    }
}

/// The eight channels of a disk. A new table has all of them closed.
#[derive(Clone, PartialEq, Eq, Debug)]
pub struct Table {
    words: [u16; WORDS * CHANNELS as usize],
}

impl Table {
    /// All eight channels closed.
    pub fn new() -> Table {
        Table {
            words: [0; WORDS * CHANNELS as usize],
        }
    }

    /// The channel with this number.
    ///
    /// # Panics
    /// If the number is above 7.
    pub fn channel(&self, number: u8) -> Channel {
        let words = &self.words[WORDS * number as usize..][..WORDS];
        Channel::from([words[0], words[1], words[2], words[3], words[4]])
    }

    /// Replaces the channel with this number.
    ///
    /// # Panics
    /// If the number is above 7.
    pub fn set_channel(&mut self, number: u8, channel: Channel) {
        self.words[WORDS * number as usize..][..WORDS].copy_from_slice(&channel.words());
    }

    /// The eight channels in order.
    pub fn channels(&self) -> impl Iterator<Item = Channel> + '_ {
        (0..CHANNELS).map(|number| self.channel(number))
    }

    /// The lowest closed channel.
    pub fn closed(&self) -> Option<u8> {
        (0..CHANNELS).find(|&number| self.channel(number).kind == CLOSED)
    }

    /// The forty words.
    pub fn words(&self) -> &[u16] {
        &self.words
    }

    /// The forty words, to be changed.
    pub fn words_mut(&mut self) -> &mut [u16] {
        &mut self.words
    }
}

impl Default for Table {
    fn default() -> Table {
        Table::new()
    }
}

#[cfg(test)]
mod tests {
    use super::*;

    #[test]
    fn channels_have_five_words_each() {
        let mut table = Table::new();
        assert_eq!(table.closed(), Some(0));
        table.set_channel(0, Channel::reading(3, 9));
        table.set_channel(
            7,
            Channel {
                kind: WRITING,
                slot: 1,
                sector: 4,
                offset: 5,
                left: 6,
            },
        );
        assert_eq!(table.words()[..6], [1, 3, 0, 0, 9, 0]);
        assert_eq!(table.words()[34..], [0, 2, 1, 4, 5, 6]);
        assert_eq!(table.channel(7).sector, 4);
        assert_eq!(table.closed(), Some(1));
        assert_eq!(
            table
                .channels()
                .filter(|channel| channel.kind == CLOSED)
                .count(),
            6
        );
        table.words_mut().fill(1);
        assert_eq!(table.closed(), None);
    }
}
