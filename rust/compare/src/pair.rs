//! Two sides that take the same steps, and what differs between them.

use model::image::Kind;

use crate::side::Side;
use crate::step::{Call, Step};
use crate::world::{sector_and_byte, Reply, World};

/// The two sides, each with a world of its own.
pub struct Pair<'a> {
    left: &'a dyn Side,
    right: &'a dyn Side,
    left_world: World,
    right_world: World,
    /// The names of the sides, for reports.
    names: [&'a str; 2],
}

/// What differed after a step, a line for each thing.
#[derive(Clone, Debug, PartialEq, Eq)]
pub struct Difference(pub Vec<String>);

impl<'a> Pair<'a> {
    /// Both sides at a fresh disk with all channels closed.
    pub fn new(left: (&'a str, &'a dyn Side), right: (&'a str, &'a dyn Side)) -> Pair<'a> {
        Pair {
            left: left.1,
            right: right.1,
            left_world: World::fresh(Kind::Raw),
            right_world: World::fresh(Kind::Raw),
            names: [left.0, right.0],
        }
    }

    /// Both sides at the same world.
    pub fn reset(&mut self, world: &World) {
        self.left_world.copy_from(world);
        self.right_world.copy_from(world);
    }

    /// The world of both sides, while nothing differs.
    pub fn world(&self) -> &World {
        &self.left_world
    }

    /// Both sides take a step. Every byte is compared afterwards; in a case that keeps a disk
    /// sound, the disk must be so too.
    pub fn step(&mut self, step: &Step, sound: bool) -> Result<Option<Reply>, Difference> {
        let left = self.left_world.run(self.left, step);
        let right = self.right_world.run(self.right, step);
        let same = left == right
            && self.left_world.image == self.right_world.image
            && self.left_world.table == self.right_world.table;
        if !same {
            return Err(self.difference(step, left, right));
        }
        if sound && !self.left_world.is_sound() {
            return Err(Difference(vec!["the disk is no longer sound".into()]));
        }
        Ok(left)
    }

    /// Both sides take the steps from the start, up to the first difference.
    pub fn first_difference(
        &mut self,
        start: &World,
        steps: &[Step],
        sound: bool,
    ) -> Option<(usize, Difference)> {
        self.reset(start);
        let failing = |(place, step)| Some((place, self.step(step, sound).err()?));
        steps.iter().enumerate().find_map(failing)
    }

    fn difference(&self, step: &Step, left: Option<Reply>, right: Option<Reply>) -> Difference {
        let mut lines = Vec::new();
        if let (Some(left), Some(right)) = (left, right) {
            if left.answer != right.answer {
                self.line(
                    &mut lines,
                    "answer",
                    &text(step, left.answer),
                    &text(step, right.answer),
                );
            }
            self.places(&mut lines, &left.buffer, &right.buffer, |at| {
                format!("buffer byte {at}")
            });
            self.places(&mut lines, &left.words, &right.words, |at| {
                format!("record word {at}")
            });
        }
        let [left, right] = [&self.left_world, &self.right_world];
        self.places(&mut lines, &left.image, &right.image, |at| {
            place_in_image(left.kind, at)
        });
        let table = |at: usize| format!("table channel {} word {}", at / 5, at % 5);
        self.places(&mut lines, &left.table, &right.table, table);
        Difference(lines)
    }

    /// A line for each of the first places that differ, and one for how many more do.
    fn places<T: Copy + PartialEq + Into<u64>>(
        &self,
        lines: &mut Vec<String>,
        left: &[T],
        right: &[T],
        place: impl Fn(usize) -> String,
    ) {
        const SHOWN: usize = 4;
        let differing = || (0..left.len()).filter(|&at| left[at] != right[at]);
        for at in differing().take(SHOWN) {
            let [left, right] = [left[at], right[at]].map(|value| value.into().to_string());
            self.line(lines, &place(at), &left, &right);
        }
        let more = differing().count().saturating_sub(SHOWN);
        if more > 0 {
            lines.push(format!("and {more} more"));
        }
    }

    fn line(&self, lines: &mut Vec<String>, place: &str, left: &str, right: &str) {
        let [left_name, right_name] = self.names;
        lines.push(format!("{place}: {left_name} {left}, {right_name} {right}"));
    }
}

/// A byte of the image by its sector, or as one of the header or behind the image.
fn place_in_image(kind: Kind, at: usize) -> String {
    match sector_and_byte(kind, at) {
        _ if at >= kind.length() => format!("byte {at}, behind the image"),
        (0, byte) => format!("header byte {byte}"),
        (sector, byte) => format!("image sector {sector} byte {byte}"),
    }
}

/// An answer as status and count; of a showing, as offset and length.
fn text(step: &Step, answer: u64) -> String {
    let (low, rest) = (answer % 256, answer / 256);
    match step {
        Step::Call {
            call: Call::Show { .. },
            ..
        } if low == 1 => format!("yes, offset {}, length {}", rest / 1024, rest % 1024),
        Step::Call {
            call: Call::Show { .. },
            ..
        } => "no".into(),
        _ => format!("{low} with {rest}"),
    }
}
