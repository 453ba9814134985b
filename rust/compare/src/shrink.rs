//! Shrinking: a short list of steps that still shows a difference.

use model::image::Kind;

use crate::pair::{Difference, Pair};
use crate::run::{run, Failure};
use crate::statistics::Statistics;
use crate::step::{Buffer, Step};
use crate::world::World;

/// Runs of shorter lists tried at most.
const TRIES: usize = 4000;
/// Other seeds that are looked at, and how many calls of each.
const OTHERS: u64 = 10;
const CALLS_OF_OTHERS: usize = 20_000;

/// A list of steps from a fresh disk that ends in a difference.
pub struct Shrunk {
    pub steps: Vec<Step>,
    pub difference: Difference,
    /// The disk had to stay sound. So it has to in what is left of the case, which like the whole
    /// has no step but calls that cannot harm a disk.
    pub sound: bool,
}

/// The shortest list that can be had from a failure, and from those of some seeds that follow:
/// a case that happened to begin with a full directory stays long, another may not.
pub fn shortest(pair: &mut Pair, seed: u64, failure: Failure) -> Shrunk {
    let mut best = shrink(pair, failure);
    for other in 1..=OTHERS {
        let mut statistics = Statistics::default();
        let seed = seed.wrapping_add(other);
        if let Err(failure) = run(pair, seed, CALLS_OF_OTHERS, &mut statistics) {
            let shrunk = shrink(pair, *failure);
            if shrunk.steps.len() < best.steps.len() {
                best = shrunk;
            }
        }
    }
    best
}

/// Shortens the list of steps of a failure.
fn shrink(pair: &mut Pair, failure: Failure) -> Shrunk {
    let start = World::fresh(Kind::Raw);
    let mut best = Shrunk {
        steps: failure.steps,
        difference: failure.difference,
        sound: failure.sound,
    };
    let mut tries = 0;
    loop {
        let before = best.steps.clone();
        drop_steps(pair, &start, &mut best, &mut tries);
        simplify_steps(pair, &start, &mut best, &mut tries);
        if best.steps == before || tries >= TRIES {
            return best;
        }
    }
}

/// Keeps the list if it shows a difference, up to the step that does.
fn keep(
    pair: &mut Pair,
    start: &World,
    best: &mut Shrunk,
    tries: &mut usize,
    mut steps: Vec<Step>,
) -> bool {
    *tries += 1;
    if *tries > TRIES {
        return false;
    }
    let Some((place, difference)) = pair.first_difference(start, &steps, best.sound) else {
        return false;
    };
    steps.truncate(place + 1);
    *best = Shrunk {
        steps,
        difference,
        ..*best
    };
    true
}

/// Leaves out runs of steps, long ones first.
fn drop_steps(pair: &mut Pair, start: &World, best: &mut Shrunk, tries: &mut usize) {
    let mut run = best.steps.len().div_ceil(2);
    while run > 0 {
        let mut from = 0;
        while from < best.steps.len() {
            let mut steps = best.steps.clone();
            steps.drain(from..(from + run).min(steps.len()));
            if !keep(pair, start, best, tries, steps) {
                from += run;
            }
        }
        run /= 2;
    }
}

/// Makes single steps simpler, as often as that goes.
fn simplify_steps(pair: &mut Pair, start: &World, best: &mut Shrunk, tries: &mut usize) {
    let mut place = 0;
    while place < best.steps.len() {
        let kept = simpler(&best.steps[place]).into_iter().any(|step| {
            let mut steps = best.steps.clone();
            steps[place] = step;
            keep(pair, start, best, tries, steps)
        });
        if !kept {
            place += 1;
        }
    }
}

/// Simpler steps than the one given, the simplest first.
fn simpler(step: &Step) -> Vec<Step> {
    let Step::Call {
        call,
        notch,
        lengths,
    } = step
    else {
        return Vec::new();
    };
    let mut steps = Vec::new();
    if lengths.is_some() {
        steps.push(Step::Call {
            call: call.clone(),
            notch: *notch,
            lengths: None,
        });
    }
    steps.extend(simpler_notches(*notch).iter().map(|&notch| Step::Call {
        call: call.clone(),
        notch,
        lengths: *lengths,
    }));
    let names = simpler_names(call.name());
    let names = names.into_iter().map(|name| call.with_name(name));
    let buffers = call.buffer().map(simpler_buffers).unwrap_or_default();
    let buffers = buffers.into_iter().map(|buffer| call.with_buffer(buffer));
    steps.extend(names.chain(buffers).map(|call| Step::Call {
        call,
        notch: *notch,
        lengths: *lengths,
    }));
    steps
}

/// Open is simpler than closed, and of all closed notches 1 is the simplest.
fn simpler_notches(notch: u8) -> &'static [u8] {
    match notch {
        0 => &[],
        1 => &[0],
        _ => &[0, 1],
    }
}

/// The end of line is simpler than a blank, one blank than more, and nothing behind it than something.
fn simpler_names(name: &[u8]) -> Vec<Vec<u8>> {
    let Some(end) = name.iter().position(|&byte| byte == b' ') else {
        return Vec::new();
    };
    let (text, padding) = name.split_at(end);
    let blanks = padding.iter().take_while(|&&byte| byte == b' ').count();
    let mut names = vec![[text, b"\x9b"].concat()];
    if padding.len() > 1 {
        names.push([text, b" "].concat());
    }
    if blanks > 1 && padding.len() > blanks {
        names.push([text, b" ", &padding[blanks..]].concat());
    }
    names
}

fn simpler_buffers(buffer: &Buffer) -> Vec<Buffer> {
    let length = buffer.len();
    let mut buffers = Vec::new();
    if matches!(buffer, Buffer::Bytes(_)) && length > 0 {
        buffers.push(Buffer::Fill(length, b'A'));
    }
    for shorter in [
        0,
        1,
        length / 2,
        length - length.min(125),
        length.saturating_sub(1),
    ] {
        if shorter < length {
            buffers.push(buffer.cut(shorter));
        }
    }
    buffers
}
