//! Timing of two jobs in turns: least and median of many timings, after both were warmed alike.

use std::ops::Range;
use std::time::{Duration, Instant};

/// How many timings of each job there are in a pass, over all of its inputs.
const TIMINGS: usize = 301;
/// How many passes over all inputs come before them, to warm caches and branch predictors.
const WARM_UP: usize = 20;
/// How long a timing lasts at least, so that the clock's grain does not matter. It is not much more
/// than that either, so that most timings are not interrupted.
const LEAST_TIMING: Duration = Duration::from_micros(20);

/// Calls on several inputs.
pub trait Job {
    /// How many inputs there are.
    fn inputs(&self) -> usize;

    /// How many calls are made on these inputs.
    fn calls(&self, inputs: Range<usize>) -> usize;

    /// Makes the calls on these inputs so many times over, and gives the time that they took.
    fn time(&mut self, inputs: Range<usize>, rounds: usize) -> Duration;
}

/// One call on each input, by its number.
pub struct Calls<F> {
    pub inputs: usize,
    pub call: F,
}

impl<F: FnMut(usize)> Job for Calls<F> {
    fn inputs(&self) -> usize {
        self.inputs
    }

    fn calls(&self, inputs: Range<usize>) -> usize {
        inputs.len()
    }

    fn time(&mut self, inputs: Range<usize>, rounds: usize) -> Duration {
        let start = Instant::now();
        for _ in 0..rounds {
            inputs.clone().for_each(&mut self.call);
        }
        start.elapsed()
    }
}

/// The least and the median time of a call, in microseconds.
#[derive(Clone, Copy, Debug)]
pub struct Times {
    pub least: f64,
    pub median: f64,
}

impl Times {
    /// Of these timings of so many calls.
    fn of(mut timings: Vec<Duration>, calls: usize) -> Self {
        timings.sort_unstable();
        let micros = |timing: Duration| timing.as_secs_f64() * 1e6 / calls as f64;
        Times { least: micros(timings[0]), median: micros(timings[timings.len() / 2]) }
    }

    /// The means of several times.
    fn mean(times: &[Times]) -> Self {
        let mean =
            |part: fn(&Times) -> f64| times.iter().map(part).sum::<f64>() / times.len() as f64;
        Times { least: mean(|times| times.least), median: mean(|times| times.median) }
    }
}

/// The times of a call of the product and of the rewrite.
#[derive(Clone, Copy, Debug)]
pub struct Pair {
    pub product: Times,
    pub rewrite: Times,
}

impl Pair {
    /// The product's median as a multiple of the rewrite's.
    pub fn ratio(&self) -> f64 {
        self.product.median / self.rewrite.median
    }

    /// The medians of the pass whose ratio is the middle one, and the least times of all passes.
    pub fn over(mut passes: Vec<Pair>) -> Self {
        passes.sort_unstable_by(|one, other| one.ratio().total_cmp(&other.ratio()));
        let least = |part: fn(&Pair) -> f64| passes.iter().map(part).fold(f64::INFINITY, f64::min);
        let Pair { product, rewrite } = passes[passes.len() / 2];
        Pair {
            product: Times { least: least(|pair| pair.product.least), ..product },
            rewrite: Times { least: least(|pair| pair.rewrite.least), ..rewrite },
        }
    }
}

/// Times one job alone, so many calls to a timing.
pub fn alone(calls: usize, mut call: impl FnMut()) -> Times {
    let timings = (0..TIMINGS).map(|_| {
        let start = Instant::now();
        (0..calls).for_each(|_| call());
        start.elapsed()
    });
    Times::of(timings.collect(), calls)
}

/// Times both jobs, each with the same calls, in turns. The inputs are timed one by one where a call
/// lasts long enough, and else all together; the times are then means over the inputs.
pub fn in_turns(mut product: impl Job, mut rewrite: impl Job) -> Pair {
    let inputs = product.inputs();
    for _ in 0..WARM_UP {
        product.time(0..inputs, 1);
        rewrite.time(0..inputs, 1);
    }
    let pass = product.time(0..inputs, 1).min(rewrite.time(0..inputs, 1));
    let (size, rounds) = match pass < LEAST_TIMING * inputs as u32 {
        true => (inputs, LEAST_TIMING.as_nanos().div_ceil(pass.as_nanos().max(1)) as usize),
        false => (1, 1),
    };
    let groups: Vec<Range<usize>> =
        (0..inputs).step_by(size).map(|first| first..first + size).collect();
    let mut timings = vec![(Vec::new(), Vec::new()); groups.len()];
    for _ in 0..TIMINGS.div_ceil(groups.len()) {
        for (group, (ours, theirs)) in groups.iter().zip(&mut timings) {
            ours.push(product.time(group.clone(), rounds));
            theirs.push(rewrite.time(group.clone(), rounds));
        }
    }
    let (mut ours, mut theirs) = (Vec::new(), Vec::new());
    for (group, timings) in groups.into_iter().zip(timings) {
        let calls = rounds * product.calls(group.clone());
        assert_eq!(calls, rounds * rewrite.calls(group), "both make the same calls");
        ours.push(Times::of(timings.0, calls));
        theirs.push(Times::of(timings.1, calls));
    }
    Pair { product: Times::mean(&ours), rewrite: Times::mean(&theirs) }
}
