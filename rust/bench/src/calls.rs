//! Each call of the product beside the rewrite's, from bytes to lent buffers that are made once.

use crate::cases::{self, Case, Input, MOST_BYTES};
use crate::steps::{product_steps, rewrite_steps};
use crate::timing::{alone, in_turns, Calls, Pair, Times};
use reference::interface;
use reference::load::Load;
use reference::machine::Machine;
use reference::sheet::{Sheet, MOST_LINKS, MOST_TASKS};
use reference::Refusal;
use std::hint::black_box;
use zeldrupa::raw as product;

/// Times one call on all inputs of a case.
pub type Measure = fn(&Case) -> Pair;

/// The calls that need a command.
pub const REFUSAL: &str = "check, 32";
pub const ONE_STEP: &str = "one step";
/// The call on sheets of six tasks, which is the only one on them.
pub const LEAST: &str = "least";
/// The call on formulas, which is the only one on them.
pub const WEIGHT: &str = "weight";
/// The calls on test loads, of which the first needs them.
pub const GENERATE: &str = "generate";
pub const PLAN: &str = "plan";
pub const CHECK: &str = "check";
/// The calls on bundles with releases are these, the check and the step.
pub const RELEASE: &str = "release";
pub const START: &str = "start";

/// The call that stands beside a check of the product's own, and how much longer than it it may take.
pub const DRIFT: &str = "drift";
pub const MOST_OF_DRIFT: f64 = 2.0;

/// The name of each call, and how it is measured.
pub const CALLS: [(&str, Measure); 15] = [
    ("reading", reading),
    ("levels", levels),
    (PLAN, plan),
    (CHECK, check),
    (REFUSAL, refusal),
    (RELEASE, release),
    (DRIFT, drift),
    ("better", better),
    (ONE_STEP, one_step),
    ("listing", listing),
    (START, start),
    ("run", run),
    (LEAST, least),
    (WEIGHT, weight),
    (GENERATE, generate),
];

/// Times a call of the product and one of the rewrite on each input.
fn both(case: &Case, mut product: impl FnMut(&Input), mut rewrite: impl FnMut(&Input)) -> Pair {
    let inputs = &case.inputs;
    in_turns(
        Calls { inputs: inputs.len(), call: |i: usize| product(&inputs[i]) },
        Calls { inputs: inputs.len(), call: |i: usize| rewrite(&inputs[i]) },
    )
}

/// Times the clearing of a work area alone, which every call of the product ends with.
pub fn clearing() -> Times {
    let mut work = area();
    alone(16, || black_box(&mut work).fill(0))
}

fn reading(case: &Case) -> Pair {
    let mut work = area();
    let (mut tasks, mut links, mut board) = ([0; 2 * MOST_TASKS], [0; 4 * MOST_LINKS], [0; 6]);
    let (mut own_tasks, mut own_links) = (tasks, links);
    both(
        case,
        |i| succeeds(product::read_sheet(&i.sheet, &mut work, &mut tasks, &mut links, &mut board)),
        |i| passes(interface::read_sheet(&i.sheet, &mut own_tasks, &mut own_links)),
    )
}

fn levels(case: &Case) -> Pair {
    let (mut work, mut out, mut own) = (area(), [0; MOST_TASKS], [0; MOST_TASKS]);
    both(
        case,
        |i| succeeds(product::levels(&i.sheet, &mut work, &mut out)),
        |i| passes(interface::levels(&i.sheet, &mut own)),
    )
}

pub fn plan(case: &Case) -> Pair {
    let (mut work, mut out, mut own) = (area(), [0; MOST_BYTES], [0; MOST_BYTES]);
    both(
        case,
        |i| succeeds(product::plan(&i.sheet, &mut work, &mut out)),
        |i| passes(interface::plan(&i.sheet, &mut own)),
    )
}

pub fn check(case: &Case) -> Pair {
    let mut work = area();
    both(
        case,
        |i| succeeds(product::check(&i.sheet, &i.bundle, &mut work)),
        |i| passes(interface::check(&i.sheet, &i.bundle)),
    )
}

/// The check of a bundle whose last link has a wrong receive.
fn refusal(case: &Case) -> Pair {
    let mut work = area();
    both(
        case,
        |i| assert_eq!(black_box(product::check(&i.sheet, &i.wrong, &mut work)).0, 32),
        |i| assert!(black_box(interface::check(&i.sheet, &i.wrong)).is_err()),
    )
}

/// The pass, which puts the releases in, or copies a bundle that has them.
fn release(case: &Case) -> Pair {
    let (mut work, mut out, mut own) = (area(), [0; MOST_BYTES], [0; MOST_BYTES]);
    both(
        case,
        |i| succeeds(product::release(&i.sheet, &i.bundle, &mut work, &mut out)),
        |i| passes(interface::release(&i.sheet, &i.bundle, &mut own)),
    )
}

/// The report of drifts beside a check: the rewrite finds each by trying, which is no opponent.
fn drift(case: &Case) -> Pair {
    let (mut work, mut own_work, mut out) = (area(), area(), [0; 4 * MOST_TASKS]);
    both(
        case,
        |i| succeeds(product::drift(&i.sheet, &i.bundle, &mut work, &mut out)),
        |i| succeeds(product::check(&i.sheet, &i.bundle, &mut own_work)),
    )
}

/// The choice between a bundle and a copy of it: both are accepted, and all bytes are compared.
fn better(case: &Case) -> Pair {
    let mut work = area();
    both(
        case,
        |i| succeeds(product::better(&i.sheet, &i.bundle, &i.copy, &mut work).0),
        |i| passes(interface::better(&i.sheet, &i.bundle, &i.copy)),
    )
}

fn one_step(case: &Case) -> Pair {
    let sheets: Vec<Sheet> =
        case.inputs.iter().map(|i| Sheet::read(&i.sheet).expect("a valid sheet")).collect();
    in_turns(product_steps(case), rewrite_steps(case, &sheets))
}

fn listing(case: &Case) -> Pair {
    let (mut work, mut out, mut own) = (area(), [0; MOST_BYTES], [0; MOST_BYTES]);
    both(
        case,
        |i| succeeds(product::listing(&i.sheet, &mut work, &mut out)),
        |i| passes(interface::listing(&i.sheet, &mut own)),
    )
}

fn start(case: &Case) -> Pair {
    let (mut work, mut state) = (area(), area());
    both(
        case,
        |i| succeeds(product::start(&i.sheet, &i.bundle, &mut work, &mut state)),
        |i| run_through(i, &[]),
    )
}

fn run(case: &Case) -> Pair {
    let (mut work, mut state) = (area(), area());
    both(
        case,
        |i| succeeds(product::run(&i.sheet, &i.bundle, &i.choices, &mut work, &mut state)),
        |i| run_through(i, &i.choices),
    )
}

fn least(case: &Case) -> Pair {
    let (mut work, mut out, mut own) = (area(), [0; MOST_BYTES], [0; MOST_BYTES]);
    both(
        case,
        |i| succeeds(product::least(&i.sheet, &mut work, &mut out)),
        |i| passes(interface::least(&i.sheet, &mut own)),
    )
}

fn weight(case: &Case) -> Pair {
    let letters = cases::letters();
    let texts = &case.formulas;
    in_turns(
        Calls {
            inputs: texts.len(),
            call: |i: usize| succeeds(product::weight(&texts[i], &letters)),
        },
        Calls {
            inputs: texts.len(),
            call: |i: usize| passes(interface::weight(&texts[i], &letters)),
        },
    )
}

fn generate(case: &Case) -> Pair {
    let (mut work, mut out, mut own) = (area(), [0; MOST_BYTES], [0; MOST_BYTES]);
    let loads = &case.loads;
    in_turns(
        Calls {
            inputs: loads.len(),
            call: |i: usize| {
                let Load { seed, tasks, tries, processors, limit } = loads[i];
                let (work, out) = (&mut work, &mut out);
                succeeds(product::generate(seed, tasks, tries, processors, limit, work, out));
            },
        },
        Calls {
            inputs: loads.len(),
            call: |i: usize| passes(interface::generate(loads[i], &mut own)),
        },
    )
}

/// The rewrite's machine from the bytes, and what these choices make of it.
fn run_through(input: &Input, choices: &[u8]) {
    let sheet = Sheet::read(&input.sheet).expect("a valid sheet");
    let mut machine = Machine::start(&sheet, &input.bundle).expect("a plan's bundle");
    for &choice in choices {
        machine.step(choice.into());
    }
    black_box(&machine);
}

/// A work area or an area for a machine's state.
pub fn area() -> Vec<u32> {
    vec![0; product::work_length()]
}

/// The rewrite gave a result.
fn passes<T>(answer: Result<T, Refusal>) {
    assert!(black_box(answer).is_ok());
}

/// The product gave a result.
pub fn succeeds(answer: product::Answer) {
    assert_eq!(black_box(answer).0, 0);
}
