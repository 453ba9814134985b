//! Lines of text: what get record and put record are lent, and files that have lines.

use model::directory::SLOTS;
use model::disk::is_data_sector;

use crate::step::Buffer;
use crate::world::World;

use super::damage::free_count;
use super::ends::ReadingPlace;
use super::Generator;

/// The commands' numbers.
pub(super) const GET_RECORD: u8 = 5;
pub(super) const PUT_RECORD: u8 = 9;

/// The byte that ends a line.
pub(super) const END_OF_LINE: u8 = 0x9b;

/// The longest line of most files.
const SHORT_LINE: usize = 60;

impl Generator {
    /// The bytes of a file: any, or text with lines.
    pub(super) fn file_bytes(&mut self, length: usize) -> Vec<u8> {
        if self.random.chance(500) {
            self.text_with_lines(length)
        } else {
            self.random.bytes(length)
        }
    }

    /// Letters with ends of lines among them, in some texts one at nearly every second place and in
    /// others none.
    fn text_with_lines(&mut self, length: usize) -> Vec<u8> {
        let often = self.random.pick(&[0, 2, 20, 100, 400]);
        let mut text: Vec<u8> = (0..length)
            .map(|_| match self.random.chance(often) {
                true => END_OF_LINE,
                false => self.random.between(b'a'.into(), b'z'.into()) as u8,
            })
            .collect();
        if let Some(last) = text.last_mut().filter(|_| self.random.chance(500)) {
            *last = END_OF_LINE;
        }
        text
    }

    /// The place for a line: as long as the one that the channel is before, or nearly, or of any
    /// length.
    pub(super) fn line_buffer(&mut self, world: &World, channel: u8) -> Buffer {
        let length = match self.random.below(20) {
            0 => 0,
            1..9 => {
                let line = line_ahead(world, channel);
                self.random.pick(&[line - 1, line - 1, line, line + 1])
            }
            9..15 => self.random.between(1, SHORT_LINE),
            _ => self.get_buffer().len(),
        };
        Buffer::Fill(length, self.random.byte())
    }

    /// A channel that writes the file of a slot, and the slot, if there is one.
    pub(super) fn writing_channel(&mut self, world: &World) -> Option<(u8, u8)> {
        self.channel_with(world, |[kind, slot, ..]| {
            (kind == 2 && slot < u16::from(SLOTS)).then_some(slot as u8)
        })
    }

    /// The bytes of a put record, with or without an end of line.
    pub(super) fn line_to_put(&mut self, world: &World, channel: u8) -> Buffer {
        if self.random.chance(100) {
            return self.line_that_fills(world, channel);
        }
        let length = match self.random.below(20) {
            0..2 => 0,
            2..12 => self.random.between(1, SHORT_LINE),
            _ => return self.put_buffer(),
        };
        Buffer::Bytes(self.text_with_lines(length))
    }

    /// So many bytes that they, or they and an end of line, just fit into the last sector of a writing
    /// channel's file; or into that and all that are free, mostly where these are few.
    fn line_that_fills(&mut self, world: &World, channel: u8) -> Buffer {
        let free = free_count(world);
        let sectors = if free < 4 || self.random.chance(200) {
            free
        } else {
            0
        };
        let room = room_of_sector(world, channel) + sectors * world.kind.data();
        let lengths = [room.saturating_sub(1), room, room, room + 1];
        Buffer::Fill(self.random.pick(&lengths), b'l')
    }
}

/// The bytes from a reading channel's place through the next end of line, or one more than to the
/// end of its chain.
fn line_ahead(world: &World, channel: u8) -> usize {
    let record = world.record_of(channel);
    let Some(place) = record.and_then(|record| ReadingPlace::of(world, record)) else {
        return 1;
    };
    let before_end = |&&byte: &&u8| byte != END_OF_LINE;
    1 + place.bytes_ahead(world).take_while(before_end).count()
}

/// The bytes that still fit into the last sector of a writing channel's file.
fn room_of_sector(world: &World, channel: u8) -> usize {
    let last = world.record_of(channel).map(|record| record[2]);
    match last.filter(|&last| is_data_sector(last)) {
        Some(last) => world.kind.data().saturating_sub(world.used(last)),
        None => 1,
    }
}
