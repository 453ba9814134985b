//! Names, legal and not.

use model::directory::IN_USE;

use crate::world::World;

use super::Generator;

impl Generator {
    /// The text of a legal name, without device and ending byte.
    pub(super) fn legal_text(&mut self) -> Vec<u8> {
        let length = self.random.pick(&[1, 1, 2, 5, 8]);
        let mut text = vec![self.random.between(b'A'.into(), b'Z'.into()) as u8];
        for _ in 1..length {
            text.push(self.letter_or_digit());
        }
        if self.random.chance(400) {
            text.push(b'.');
            for _ in 0..self.random.between(0, 3) {
                text.push(self.letter_or_digit());
            }
        }
        text
    }

    fn letter_or_digit(&mut self) -> u8 {
        self.random.pick(b"ABCDEFGHIJKLMNOPQRSTUVWXYZ0123456789")
    }

    /// The text of a name: so often of a thousand that of a slot, else from the pool or a new one.
    fn text(&mut self, world: &World, of_slot: usize) -> Vec<u8> {
        if self.random.chance(of_slot) && world.flag(0) != 0 {
            let slot = self.slot_that(world, |flag| flag & IN_USE != 0);
            return slot_text(world, slot);
        }
        if self.random.chance(900) {
            return self.pool[self.random.below(self.pool.len())].clone();
        }
        self.legal_text()
    }

    /// The text with a mistake in it.
    fn bad_text(&mut self, world: &World) -> Vec<u8> {
        let mut text = self.text(world, 500);
        match self.random.below(11) {
            0 => text.insert(0, b'1'),
            1 => text = text.to_ascii_lowercase(),
            2 => text = b"ABCDEFGHI".to_vec(),
            3 => text = b"A.ABCD".to_vec(),
            4 => text.extend(b".A.B"),
            5 => text.insert(0, b' '),
            6 => text.push(b','),
            7 => text.insert(0, b'.'),
            8 => text.clear(),
            9 => text.push(b'*'),
            _ => {
                let place = self.random.below(text.len() + 1);
                text.insert(place, self.random.byte());
            }
        }
        text
    }

    /// The device, mostly `D:`; a wrong one if asked for.
    fn device(&mut self, bad: bool) -> &'static [u8] {
        let good: [&[u8]; 3] = [b"D:", b"D:", b"D1:"];
        let wrong: [&[u8]; 12] = [
            b"D2:", b"D2:", b"D0:", b"D8:", b"D9:", b"E:", b"d:", b"D", b"DD:", b"D12:", b"", b":",
        ];
        if bad {
            self.random.pick(&wrong)
        } else {
            self.random.pick(&good)
        }
    }

    /// The ending byte of a name that is so many bytes long before it, now and then with bytes
    /// behind it; none if asked for.
    fn ending(&mut self, length: usize, bad: bool) -> Vec<u8> {
        if bad {
            return Vec::new();
        }
        if self.random.chance(350) {
            return self.padding(length);
        }
        let mut ending = vec![self.random.pick(&[0x9b, 0x9b, 0])];
        if self.random.chance(100) {
            ending.extend(self.few_bytes());
        }
        ending
    }

    /// Blanks, a few or up to a length that names are padded to or hundreds, and what may stand
    /// behind them: nothing, an ending byte, any bytes, a text.
    fn padding(&mut self, length: usize) -> Vec<u8> {
        let blanks = match self.random.below(20) {
            0..14 => self.random.between(1, 4),
            14..19 => {
                let whole = self.random.pick(&[14usize, 15, 20]);
                whole.saturating_sub(length).max(1)
            }
            _ => self.random.between(100, 600),
        };
        let behind = match self.random.below(6) {
            0 => Vec::new(),
            1 | 2 => vec![0x9b],
            3 => vec![0],
            4 => self.few_bytes(),
            _ => {
                let joint = self.random.pick(&[b"".as_slice(), b".", b","]);
                [joint, &self.legal_text(), b"\x9b"].concat()
            }
        };
        [vec![b' '; blanks], behind].concat()
    }

    fn few_bytes(&mut self) -> Vec<u8> {
        let length = self.random.between(1, 4);
        self.random.bytes(length)
    }

    /// The name of one file: so often of a thousand that of a slot.
    pub(super) fn name(&mut self, world: &World, of_slot: usize) -> Vec<u8> {
        let bad = self.random.chance(self.style.bad_names);
        let place = if bad {
            self.random.pick(&[0, 0, 1, 2, 3])
        } else {
            9
        };
        let device = self.device(place == 0);
        let text = if matches!(place, 1 | 2) {
            self.bad_text(world)
        } else {
            self.text(world, of_slot)
        };
        let ending = self.ending(device.len() + text.len(), place == 3);
        [device, &text, &ending].concat()
    }

    /// The two names of a rename.
    pub(super) fn two_names(&mut self, world: &World) -> Vec<u8> {
        let bad = self.random.chance(2 * self.style.bad_names);
        let place = if bad { self.random.below(9) } else { 9 };
        let device = self.device(place == 0);
        let old = if place == 1 {
            self.bad_text(world)
        } else {
            self.text(world, 750)
        };
        let same = self.random.chance(80);
        let new = match place {
            2 => self.bad_text(world),
            3 => [b"D:", self.text(world, 0).as_slice()].concat(),
            _ if same => old.clone(),
            _ => self.text(world, 300),
        };
        let comma: &[u8] = match place {
            4 => b"",
            5 => b",,",
            6 => b"\x9b,",
            7 => self.random.pick(&[b" ,".as_slice(), b"    ,"]),
            _ => b",",
        };
        let length = device.len() + old.len() + comma.len() + new.len();
        let ending = self.ending(length, place == 8);
        [device, &old, comma, &new, &ending].concat()
    }

    /// The device alone, as format takes it.
    pub(super) fn device_alone(&mut self, world: &World) -> Vec<u8> {
        let bad = self.random.chance(4 * self.style.bad_names);
        let place = if bad { self.random.below(3) } else { 9 };
        let device = self.device(place == 0);
        let text = if place == 1 {
            self.text(world, 0)
        } else {
            Vec::new()
        };
        let ending = self.ending(device.len() + text.len(), place == 2);
        [device, &text, &ending].concat()
    }
}

/// The text of the name that a slot has, whatever its bytes are.
pub(super) fn slot_text(world: &World, slot: u8) -> Vec<u8> {
    let name = world.slot_name(slot);
    let (stem, extension) = name.split_at(8);
    let mut text = stem.trim_ascii_end().to_vec();
    if !extension.trim_ascii_end().is_empty() {
        text.push(b'.');
        text.extend(extension.trim_ascii_end());
    }
    text
}
