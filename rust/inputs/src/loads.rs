//! Made-up test loads: what the sheet of a seed is made from, in range and out of it.

use crate::random::Random;
use crate::sheets::{MOST_LINKS, MOST_TASKS};

/// The most processors of a board.
const MOST_PROCESSORS: usize = 16;
/// Numbers at the edges of 32 bits.
const EDGES: [u32; 5] = [1, 2, 1 << 31, u32::MAX - 1, u32::MAX];

/// What a sheet is made from.
#[derive(Clone, Copy, Debug)]
pub struct Load {
    pub seed: u32,
    pub tasks: u32,
    pub tries: u32,
    pub processors: u32,
    pub limit: u32,
}

/// A seed, mostly any and now and then one at the edges.
fn seed(random: &mut Random) -> u32 {
    match random.once_in(16) {
        true => random.pick(&EDGES),
        false => (random.bits() as u32).max(1),
    }
}

/// A load in range of at most so many tasks and tries, on any board.
pub fn within(random: &mut Random, most_tasks: usize, most_tries: usize) -> Load {
    Load {
        seed: seed(random),
        tasks: random.within(1..=most_tasks) as u32,
        tries: random.within(0..=most_tries) as u32,
        processors: random.within(1..=MOST_PROCESSORS) as u32,
        limit: random.bits() as u32,
    }
}

/// A load of a few tasks, on a board on which they may or may not fit.
pub fn tight(random: &mut Random, most_tasks: usize, most_tries: usize) -> Load {
    let load = within(random, most_tasks, most_tries);
    // A task's store is 31 in the mean, and the board takes about all of them or half as much.
    let limit = (40 * load.tasks / load.processors + 40) * random.within(1..=4) as u32 / 2;
    Load { limit, ..load }
}

/// The loads at every edge of their ranges.
pub fn edges(random: &mut Random) -> Vec<Load> {
    let mut loads = Vec::new();
    for seed in EDGES {
        for tasks in [1, 2, MOST_TASKS as u32 - 1, MOST_TASKS as u32] {
            for tries in [0, 1, MOST_LINKS as u32 - 1, MOST_LINKS as u32] {
                for processors in [1, MOST_PROCESSORS as u32] {
                    let any = random.bits() as u32;
                    let limit = random.pick(&[0, u32::MAX, any]);
                    loads.push(Load { seed, tasks, tries, processors, limit });
                }
            }
        }
    }
    loads
}

/// A load with at least one number out of its range, mostly just out of it.
pub fn outside(random: &mut Random) -> Load {
    let mut load = within(random, MOST_TASKS, MOST_LINKS);
    for _ in 0..random.within(1..=3) {
        let far = (random.bits() as u32).max(MOST_LINKS as u32 + 1);
        match random.below(4) {
            0 => load.seed = 0,
            1 => load.tasks = random.pick(&[0, MOST_TASKS as u32 + 1, far]),
            2 => load.tries = random.pick(&[MOST_LINKS as u32 + 1, u32::MAX, far]),
            // 256 and one more fit the range if only their low byte is looked at.
            _ => load.processors = random.pick(&[0, MOST_PROCESSORS as u32 + 1, 256, 257, far]),
        }
    }
    load
}
