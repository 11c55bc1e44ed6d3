//! Single steps of the machine: started before the timing, then every choice of a run to its end.

use crate::calls::{area, succeeds};
use crate::cases::{Case, Input};
use crate::timing::Job;
use reference::machine::Machine;
use reference::sheet::Sheet;
use std::hint::black_box;
use std::ops::Range;
use std::time::{Duration, Instant};
use zeldrupa::raw as product;

/// How many steps are timed together at least: as many machines are started as this takes.
const LEAST_STEPS: usize = 256;

/// The steps of the product's machines.
pub fn product_steps(case: &Case) -> impl Job + '_ {
    Steps::new(case, |input| ProductMachine::new(&case.inputs[input]))
}

/// The steps of the rewrite's machines for these sheets, as it has read them.
pub fn rewrite_steps<'a>(case: &'a Case, sheets: &'a [Sheet]) -> impl Job + 'a {
    Steps::new(case, |input| RewriteMachine::new(&case.inputs[input], &sheets[input]))
}

/// A machine that can be run to its end again and again.
trait Runs {
    /// How many steps a run has.
    fn steps(&self) -> usize;

    /// Makes the machine fresh.
    fn restart(&mut self);

    /// Makes every choice of the run, one call each.
    fn run(&mut self);
}

/// The machines of a case, as many of each input.
struct Steps<M> {
    machines: Vec<M>,
    each: usize,
}

impl<M> Steps<M> {
    /// Starts machines by the number of their input.
    fn new(case: &Case, start: impl Fn(usize) -> M) -> Self {
        let steps: usize = case.inputs.iter().map(|input| input.choices.len()).sum();
        let each = LEAST_STEPS.div_ceil(steps);
        let machines = (0..each * case.inputs.len()).map(|number| start(number / each)).collect();
        Steps { machines, each }
    }

    /// The numbers of these inputs' machines.
    fn of(&self, inputs: Range<usize>) -> Range<usize> {
        inputs.start * self.each..inputs.end * self.each
    }
}

impl<M: Runs> Job for Steps<M> {
    fn inputs(&self) -> usize {
        self.machines.len() / self.each
    }

    fn calls(&self, inputs: Range<usize>) -> usize {
        self.machines[self.of(inputs)].iter().map(M::steps).sum()
    }

    fn time(&mut self, inputs: Range<usize>, rounds: usize) -> Duration {
        let range = self.of(inputs);
        let machines = &mut self.machines[range];
        let mut sum = Duration::ZERO;
        for _ in 0..rounds {
            machines.iter_mut().for_each(M::restart);
            let start = Instant::now();
            machines.iter_mut().for_each(M::run);
            sum += start.elapsed();
        }
        sum
    }
}

struct ProductMachine<'a> {
    input: &'a Input,
    state: Vec<u32>,
    /// The words that a run to its end changes, as they are in the fresh state: to put them back is a
    /// start that leaves the caches alone.
    fresh: Vec<(usize, u32)>,
}

impl<'a> ProductMachine<'a> {
    fn new(input: &'a Input) -> Self {
        let mut state = area();
        succeeds(product::start(&input.sheet, &input.bundle, &mut area(), &mut state));
        let before = state.clone();
        let mut machine = ProductMachine { input, state, fresh: Vec::new() };
        machine.run();
        assert_eq!(product::left(&input.bundle, &machine.state), (0, 0), "the run is whole");
        let words = before.into_iter().enumerate();
        machine.fresh = words.filter(|&(at, word)| word != machine.state[at]).collect();
        machine
    }
}

impl Runs for ProductMachine<'_> {
    fn steps(&self) -> usize {
        self.input.choices.len()
    }

    fn restart(&mut self) {
        for &(at, word) in &self.fresh {
            self.state[at] = word;
        }
    }

    fn run(&mut self) {
        let Input { sheet, bundle, choices, .. } = self.input;
        let (sheet, bundle, state) = (&sheet[..], &bundle[..], &mut self.state[..]);
        for &choice in choices {
            black_box(product::step(sheet, bundle, state, choice.into()));
        }
    }
}

struct RewriteMachine<'a> {
    input: &'a Input,
    machine: Machine<'a>,
    fresh: Machine<'a>,
}

impl<'a> RewriteMachine<'a> {
    fn new(input: &'a Input, sheet: &'a Sheet) -> Self {
        let fresh = Machine::start(sheet, &input.bundle).expect("a plan's bundle");
        let mut machine = RewriteMachine { input, machine: fresh.clone(), fresh };
        machine.run();
        assert_eq!(machine.machine.left(), 0, "the run is whole");
        machine
    }
}

impl Runs for RewriteMachine<'_> {
    fn steps(&self) -> usize {
        self.input.choices.len()
    }

    fn restart(&mut self) {
        self.machine.clone_from(&self.fresh);
    }

    fn run(&mut self) {
        for &choice in &self.input.choices {
            black_box(self.machine.step(choice.into()));
        }
    }
}
