//! Test loads, C-21 of document 02: "Write a sheet from a seed (u32, not 0), task count n, link tries
//! m, processors and M."

use crate::refusal::Refusal;
use crate::sheet::{Link, Task};

/// "modulo 4,294,967,296".
const MODULUS: u64 = 4_294_967_296;

/// The state that a draw works on, and the second one.
struct States {
    seed: u64,
    second: u64,
}

impl States {
    /// "a second state, first 0".
    fn new(seed: u32) -> Self {
        States { seed: seed.into(), second: 0 }
    }

    /// "One draw: Marsaglia's 32-bit xorshift with left 13, right 17, left 5 on the seed's state; then
    /// a second state, first 0, grows by 362,437 modulo 4,294,967,296; the draw is the sum of both
    /// states modulo the same."
    fn draw(&mut self) -> u64 {
        self.seed ^= (self.seed << 13) % MODULUS;
        self.seed ^= self.seed >> 17;
        self.seed ^= (self.seed << 5) % MODULUS;
        self.second = (self.second + 362_437) % MODULUS;
        (self.seed + self.second) % MODULUS
    }
}

/// The tasks and the links of a seed: "Seed 0, n outside 1 to 256, m above 1,024 or wrong processors
/// give 6, place 0".
pub fn made(seed: u32, n: u32, m: u32, processors: u32) -> Result<(Vec<Task>, Vec<Link>), Refusal> {
    let wrong_processors = !(1..=16).contains(&processors);
    if seed == 0 || !(1..=256).contains(&n) || m > 1024 || wrong_processors {
        return Err(Refusal::new(6, 0));
    }
    let mut states = States::new(seed);
    let mut tasks = Vec::new();
    for _ in 0..n {
        // "Per task: work = 1 + draw mod 100, store = draw mod 64."
        let work = 1 + states.draw() % 100;
        let store = states.draw() % 64;
        tasks.push(Task { work, store });
    }
    let mut links: Vec<Link> = Vec::new();
    for _ in 0..m {
        // "Per try: from and to = draw mod n, cost = draw mod 50, bytes = draw mod 16, always four
        // draws in that order".
        let from = (states.draw() % u64::from(n)) as usize;
        let to = (states.draw() % u64::from(n)) as usize;
        let cost = states.draw() % 50;
        let bytes = states.draw() % 16;
        // "the link is written if from is below to and the pair is not there yet".
        let there = links.iter().any(|link| (link.from, link.to) == (from, to));
        if from < to && !there {
            links.push(Link { from, to, cost, bytes });
        }
    }
    Ok((tasks, links))
}
