//! What a case begins with: an empty disk, some files, a full disk, a full directory.

use model::disk::DATA_SECTORS;

use crate::step::{Buffer, Call, Cio};

use super::Generator;

/// The channel used to set up a disk.
const CHANNEL: u8 = 7;

/// Ways to begin.
#[derive(Clone, Copy)]
enum Beginning {
    Empty,
    Files,
    SectorsReused,
    FullDisk,
    FullDirectory,
    FullDirectoryAndDisk,
}

impl Generator {
    /// Plans the calls that a case begins with.
    pub(super) fn set_up(&mut self) {
        let beginning = self.random.weighted(&[
            (30, Beginning::Empty),
            (34, Beginning::Files),
            (8, Beginning::SectorsReused),
            (14, Beginning::FullDisk),
            (8, Beginning::FullDirectory),
            (8, Beginning::FullDirectoryAndDisk),
        ]);
        match beginning {
            Beginning::Empty => (),
            Beginning::Files => self.set_up_files(),
            Beginning::SectorsReused => self.set_up_reused(),
            Beginning::FullDisk => {
                let small = self.random.pick(&[0, 0, 0, 1, 2]);
                for name in self.pool.clone().into_iter().skip(1).take(small) {
                    self.make(&name, Buffer::Fill(10, b'x'));
                }
                let data = self.kind.data();
                let missing = self
                    .random
                    .pick(&[0, 1, data - 1, data, 3 * data, 11 * data]);
                let bytes = usize::from(DATA_SECTORS) * data - missing;
                let name = self.pool[0].clone();
                self.make(&name, Buffer::Fill(bytes, b'F'));
            }
            Beginning::FullDirectory => {
                let slots = self.random.between(60, 64);
                self.set_up_slots(slots);
            }
            Beginning::FullDirectoryAndDisk => {
                let slots = self.random.between(63, 64);
                self.set_up_slots(slots);
                self.make(b"A0", Buffer::Fill(self.kind.length(), b'G'));
            }
        }
    }

    /// A few files of different lengths, some of them deleted.
    fn set_up_files(&mut self) {
        for name in self.pool.clone() {
            let data = self.kind.data();
            let lengths = [0, 1, 60, data, data + 1, 2 * data, 400, 1500];
            let length = self.random.pick(&lengths);
            let bytes = self.file_bytes(length);
            self.make(&name, Buffer::Bytes(bytes));
        }
        for name in self.pool.clone() {
            if self.random.chance(300) {
                self.plan_cio(33, 0, &name, Buffer::Fill(0, 0));
            }
        }
    }

    /// Deleted files whose sectors another file has taken, which is deleted too.
    fn set_up_reused(&mut self) {
        let files = self.random.between(2, self.pool.len());
        for name in &self.pool.clone()[1..files] {
            let length = self.random.between(1, 300);
            self.make(name, Buffer::Fill(length, b'o'));
        }
        for name in &self.pool.clone()[1..files] {
            self.plan_cio(33, 0, name, Buffer::Fill(0, 0));
        }
        let name = self.pool[0].clone();
        let length = self.random.between(1, 600);
        self.make(&name, Buffer::Fill(length, b'n'));
        if self.random.chance(700) {
            self.plan_cio(33, 0, &name, Buffer::Fill(0, 0));
        }
    }

    /// That many files in the directory.
    fn set_up_slots(&mut self, slots: usize) {
        for slot in 0..slots as u8 {
            let name = [b'A' + slot / 8, b'0' + slot % 8];
            self.plan_cio(3, 8, &name, Buffer::Fill(0, 0));
            self.plan_cio(12, 0, b"", Buffer::Fill(0, 0));
        }
    }

    /// Plans the making of a file.
    fn make(&mut self, name: &[u8], bytes: Buffer) {
        self.plan_cio(3, 8, name, Buffer::Fill(0, 0));
        self.plan_cio(11, 0, b"", bytes);
        self.plan_cio(12, 0, b"", Buffer::Fill(0, 0));
    }

    fn plan_cio(&mut self, command: u8, direction: u8, text: &[u8], buffer: Buffer) {
        let name = [b"D:", text, b"\x9b"].concat();
        let cio = Cio {
            direction,
            name,
            buffer,
            ..Cio::new(CHANNEL, command)
        };
        self.planned.push_back(Call::Cio(cio).into());
    }
}
