//! Many cases from one seed, up to the first difference.

use model::image::Kind;

use crate::generate::Generator;
use crate::pair::{Difference, Pair};
use crate::random::Random;
use crate::statistics::Statistics;
use crate::step::Step;
use crate::world::World;

/// A case that ended in a difference.
pub struct Failure {
    /// Calls made until then, those of the cases before included.
    pub calls: usize,
    /// The case's steps; the last one differs.
    pub steps: Vec<Step>,
    pub difference: Difference,
    /// The case was to keep the disk sound.
    pub sound: bool,
}

/// Runs cases until so many calls are made; answers how many.
pub fn run(
    pair: &mut Pair,
    seed: u64,
    calls: usize,
    statistics: &mut Statistics,
) -> Result<usize, Box<Failure>> {
    let mut seeds = Random::new(seed);
    let start = World::fresh(Kind::Raw);
    let mut made = 0;
    while made < calls {
        pair.reset(&start);
        run_case(pair, Generator::new(seeds.bits()), &mut made, statistics)?;
    }
    Ok(made)
}

fn run_case(
    pair: &mut Pair,
    mut generator: Generator,
    made: &mut usize,
    statistics: &mut Statistics,
) -> Result<(), Box<Failure>> {
    let mut steps = Vec::new();
    while let Some(step) = generator.next(pair.world()) {
        let sound = generator.is_sound();
        let all_open = pair.world().all_open();
        let outcome = pair.step(&step, sound);
        *made += usize::from(matches!(step, Step::Call { .. }));
        steps.push(step);
        match outcome {
            Ok(None) => (),
            Ok(Some(reply)) => {
                let (world, step) = (pair.world(), &steps[steps.len() - 1]);
                statistics.count(world.kind, all_open, step, reply.answer);
                statistics.count_ending(world, step, &reply);
            }
            Err(difference) => {
                return Err(Box::new(Failure {
                    calls: *made,
                    steps,
                    difference,
                    sound,
                }));
            }
        }
    }
    Ok(())
}
