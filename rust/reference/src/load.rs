//! Test loads that can be made again: a sheet from a seed, by draws (C-21 of document 02).

use crate::command_bytes::*;
use crate::refusal::{Refusal, RANGE};
use crate::sheet::{MOST_LINKS, MOST_PROCESSORS, MOST_TASKS};
use crate::task_set::TaskSet;

/// What a load is made from.
#[derive(Clone, Copy, Debug, PartialEq, Eq)]
pub struct Load {
    /// Where the draws start; not 0.
    pub seed: u32,
    pub tasks: u32,
    /// How often a link is tried.
    pub tries: u32,
    pub processors: u32,
    /// The store limit M of each processor.
    pub limit: u32,
}

impl Load {
    /// The bytes of its sheet (6, at 0).
    pub fn to_bytes(self) -> Result<Vec<u8>, Refusal> {
        let Load { seed, tasks, tries, processors, limit } = self;
        let outside = seed == 0
            || !(1..=MOST_TASKS).contains(&(tasks as usize))
            || tries as usize > MOST_LINKS
            || !(1..=MOST_PROCESSORS).contains(&(processors as usize));
        if outside {
            return Err(Refusal::new(RANGE, 0));
        }
        let tries_length = LINK_LENGTH * tries as usize;
        let mut bytes = Vec::with_capacity(
            BOARD_LENGTH + TASK_LENGTH * tasks as usize + tries_length + END_LENGTH,
        );
        bytes.extend([BOARD, processors as u8]);
        bytes.extend(limit.to_le_bytes());
        let mut draws = Draws::new(seed);
        for _ in 0..tasks {
            let (work, store) = (1 + draws.below(100) as u8, draws.below(64) as u8);
            bytes.extend([TASK, work, 0, store, 0]);
        }
        let mut successors = [TaskSet::default(); MOST_TASKS];
        for _ in 0..tries {
            let (from, to) = (draws.below(tasks), draws.below(tasks));
            let (cost, size) = (draws.below(50) as u8, draws.below(16) as u8);
            if from < to && successors[from as usize].insert(to as usize) {
                bytes.extend([LINK, from as u8, to as u8, cost, 0, size, 0]);
            }
        }
        bytes.push(END);
        Ok(bytes)
    }
}

/// Marsaglia's 32-bit xorshift, and a second state that grows by a fixed number.
#[derive(Clone, Debug)]
pub struct Draws {
    shifted: u32,
    grown: u32,
}

impl Draws {
    /// The draws of a seed, before the first.
    pub fn new(seed: u32) -> Self {
        Draws { shifted: seed, grown: 0 }
    }

    /// The next draw.
    pub fn draw(&mut self) -> u32 {
        self.shifted ^= self.shifted << 13;
        self.shifted ^= self.shifted >> 17;
        self.shifted ^= self.shifted << 5;
        self.grown = self.grown.wrapping_add(362_437);
        self.shifted.wrapping_add(self.grown)
    }

    /// The next draw modulo `end`, which is not 0.
    fn below(&mut self, end: u32) -> u32 {
        self.draw() % end
    }
}

#[cfg(test)]
mod tests {
    use super::*;

    #[test]
    fn the_first_draws_of_seed_1() {
        let mut draws = Draws::new(1);
        assert_eq!([0; 3].map(|_| draws.draw()), [632_806, 68_359_563, 2_648_522_772]);
    }
}
