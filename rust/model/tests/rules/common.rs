//! A disk with its channels, and short ways to call the model on them. Where things lie is written
//! out here from the papers once more, and not asked of the model.

use model::image::Kind;
use model::Request;

use crate::KIND;

/// The commands' numbers.
pub const OPEN: u8 = 3;
pub const GET_RECORD: u8 = 5;
pub const GET: u8 = 7;
pub const PUT_RECORD: u8 = 9;
pub const PUT: u8 = 11;
pub const CLOSE: u8 = 12;
pub const STATUS: u8 = 13;
pub const RENAME: u8 = 32;
pub const DELETE: u8 = 33;
pub const LOCK: u8 = 35;
pub const UNLOCK: u8 = 36;
pub const FORMAT: u8 = 254;

/// The byte that ends a line.
pub const END: u8 = 0x9b;

/// Device and unit of sector calls.
pub const DRIVE: (u8, u8) = (0x31, 1);

/// Bytes of the header, of a sector behind the third, and of its data.
pub const HEADER: usize = match KIND {
    Kind::Raw => 0,
    Kind::AtrSingle | Kind::AtrDouble => 16,
};
pub const SECTOR: usize = match KIND {
    Kind::Raw | Kind::AtrSingle => 128,
    Kind::AtrDouble => 256,
};
pub const DATA: usize = match KIND {
    Kind::Raw | Kind::AtrSingle => 125,
    Kind::AtrDouble => 253,
};
/// The count of a full sector.
pub const FULL: u8 = DATA as u8;
/// The bytes of all data sectors.
pub const WHOLE_DISK: usize = match KIND {
    Kind::Raw | Kind::AtrSingle => 88_375,
    Kind::AtrDouble => 178_871,
};

/// Ways in which the second sector of a file on sectors 4, 5 and 6 cannot be entered, by the last
/// three bytes of 4 and of 5 and the sectors left to enter: no data sector, another slot's, too many
/// bytes, none left.
pub const NOT_ENTERED: [([u8; 3], [u8; 3], u16); 4] = [
    ([1, 0x68, FULL], [0, 6, FULL], 3),
    ([0, 5, FULL], [4, 6, FULL], 3),
    ([0, 5, FULL], [0, 6, FULL + 1], 3),
    ([0, 5, FULL], [0, 6, FULL], 1),
];

/// Where a sector behind the third begins.
pub const fn sector(number: usize) -> usize {
    HEADER + 3 * 128 + (number - 4) * SECTOR
}

/// Where the last three bytes of a sector begin.
pub const fn tail(number: usize) -> usize {
    sector(number) + DATA
}

/// Where the volume table begins.
pub const TABLE: usize = sector(360);

/// Where a slot of the directory begins: eight are in the first 128 bytes of each sector.
pub fn slot(number: usize) -> usize {
    sector(361 + number / 8) + 16 * (number % 8)
}

/// A line of so many bytes, its `$9B` the last of them.
pub fn line(length: usize) -> Vec<u8> {
    let mut line = vec![b'x'; length];
    line[length - 1] = END;
    line
}

/// A status and its count.
pub type Answer = (u8, u64);

/// A call with this status did all that it was asked for.
pub fn succeeds(status: u8) -> bool {
    matches!(status, 1 | 3)
}

/// A call's number taken apart.
pub fn answer(number: u64) -> Answer {
    ((number % 256) as u8, number / 256)
}

fn request(channel: u8, command: u8, direction: u8, name: &[u8]) -> Request<'_> {
    Request::new(channel, command)
        .direction(direction)
        .name(name)
}

#[derive(Clone)]
pub struct Desk {
    pub image: Vec<u8>,
    pub table: [u16; 40],
    pub notch: u8,
}

impl Desk {
    /// A fresh disk and a fresh table, and the notch open.
    pub fn new() -> Desk {
        Desk {
            image: KIND.fresh(),
            table: [0; 40],
            notch: 0,
        }
    }

    pub fn cio(&mut self, channel: u8, command: u8, direction: u8, name: &[u8]) -> Answer {
        self.ask(request(channel, command, direction, name))
    }

    fn ask(&mut self, request: Request) -> Answer {
        let mut request = request.notch(self.notch);
        answer(model::cio(&mut self.image, &mut self.table, &mut request))
    }

    pub fn put(&mut self, channel: u8, bytes: &[u8]) -> Answer {
        self.ask(Request::new(channel, PUT).buffer(&mut bytes.to_vec()))
    }

    pub fn put_record(&mut self, channel: u8, bytes: &[u8]) -> Answer {
        self.ask(Request::new(channel, PUT_RECORD).buffer(&mut bytes.to_vec()))
    }

    /// A get into a buffer of `$EE`.
    pub fn get(&mut self, channel: u8, length: usize) -> (Answer, Vec<u8>) {
        self.fill(Request::new(channel, GET), length)
    }

    /// A get record into a buffer of `$EE`.
    pub fn get_record(&mut self, channel: u8, length: usize) -> (Answer, Vec<u8>) {
        self.fill(Request::new(channel, GET_RECORD), length)
    }

    fn fill(&mut self, request: Request, length: usize) -> (Answer, Vec<u8>) {
        let mut buffer = vec![0xee; length];
        let request = request.buffer(&mut buffer);
        let answer = self.ask(request);
        (answer, buffer)
    }

    /// Makes a closed file with channel 7.
    pub fn make(&mut self, name: &[u8], bytes: &[u8]) {
        assert_eq!(self.cio(7, OPEN, 8, name), (1, 0));
        assert_eq!(self.put(7, bytes), (1, bytes.len() as u64));
        assert_eq!(self.cio(7, CLOSE, 0, b""), (1, 0));
    }

    /// All the bytes of a file, read with channel 7.
    pub fn bytes(&mut self, name: &[u8]) -> Vec<u8> {
        assert_eq!(self.cio(7, OPEN, 4, name), (1, 0));
        let ((status, count), mut buffer) = self.get(7, 200_000);
        assert_eq!(status, 136);
        assert_eq!(self.cio(7, CLOSE, 0, b""), (1, 0));
        buffer.truncate(count as usize);
        buffer
    }

    pub fn recover(&mut self, slot: u8) -> Answer {
        answer(model::recover(&mut self.image, self.notch, slot))
    }

    /// A sector call with a buffer of `$EE`.
    pub fn sector(
        &mut self,
        (device, unit): (u8, u8),
        command: u8,
        sector: u16,
        length: usize,
    ) -> (Answer, Vec<u8>) {
        let mut buffer = vec![0xee; length];
        let (image, notch) = (&mut self.image, self.notch);
        let number = model::sector(image, notch, device, unit, command, sector, &mut buffer);
        (answer(number), buffer)
    }

    /// A thin get into a buffer of `$EE`.
    pub fn thin_get(&self, words: &mut [u16], length: usize) -> (Answer, Vec<u8>) {
        let mut buffer = vec![0xee; length];
        let number = model::thin_get(&self.image, words, &mut buffer);
        (answer(number), buffer)
    }

    pub fn thin_put(&mut self, words: &mut [u16], bytes: &[u8]) -> Answer {
        answer(model::thin_put(&mut self.image, self.notch, words, bytes))
    }

    /// The last three bytes of a sector.
    pub fn tail(&self, sector: usize) -> [u8; 3] {
        let at = tail(sector);
        [self.image[at], self.image[at + 1], self.image[at + 2]]
    }

    pub fn set_tail(&mut self, sector: usize, bytes: [u8; 3]) {
        let at = tail(sector);
        self.image[at..at + 3].copy_from_slice(&bytes);
    }

    pub fn record(&self, channel: usize) -> [u16; 5] {
        self.table[5 * channel..][..5].try_into().unwrap()
    }

    pub fn set_record(&mut self, channel: usize, record: [u16; 5]) {
        self.table[5 * channel..][..5].copy_from_slice(&record);
    }

    /// The free count of the volume table.
    pub fn free(&self) -> u16 {
        u16::from_le_bytes([self.image[TABLE + 3], self.image[TABLE + 4]])
    }

    /// Makes the volume table not good.
    pub fn spoil_table(&mut self) {
        self.image[TABLE] = 1;
    }

    /// Runs a call that must be refused: its status, after testing that it changed nothing.
    pub fn refused(&mut self, channel: u8, command: u8, direction: u8, name: &[u8]) -> u8 {
        let (image, table) = (self.image.clone(), self.table);
        let mut buffer = [0xee; 3];
        let request = request(channel, command, direction, name).buffer(&mut buffer);
        let (status, count) = self.ask(request);
        assert!(self.image == image && self.table == table && buffer == [0xee; 3]);
        assert_eq!(count, 0);
        status
    }
}

/// A disk with file A in slot 0, which channel 0 reads from its beginning.
pub fn reading(bytes: &[u8]) -> Desk {
    let mut desk = Desk::new();
    desk.make(b"D:A\x9b", bytes);
    assert_eq!(desk.cio(0, OPEN, 4, b"D:A\x9b"), (1, 0));
    desk
}
