//! Holds the product against the fast rewrite on inputs of all sizes, and against the literal rules
//! on small ones; fails on the first difference.
//!
//! `compare [SEED]`: the same seed makes the same inputs.

mod comparison;
mod drifts;
mod early;
mod families;
mod formats;
mod lent;
mod loads;
mod machine;
mod planner;
mod releases;
mod rules;
mod tally;
mod weights;

use comparison::Difference;
use families::{Family, Report};
use reference::refusal::STUCK;
use rules::Rules;
use std::env;
use std::process::ExitCode;
use tally::{Function, Tally, DRESSED, FUNCTIONS};

const THREADS: usize = 2;
/// The fewest calls that count as a comparison.
const FEWEST_CALLS: usize = 100_000;
/// The fewest sheets that are planned.
const FEWEST_PLANS: usize = 50_000;
/// The fewest pairs of a sheet and a bundle, and how many of them have to get stuck.
const FEWEST_PAIRS: usize = 200_000;
const FEWEST_STUCK: usize = 3000;
/// The fewest formulas that are weighed.
const FEWEST_FORMULAS: usize = 1_000_000;
/// The fewest sheets whose least time is found.
const FEWEST_LEAST: usize = 15_000;
/// The fewest test loads.
const FEWEST_LOADS: usize = 50_000;
/// The fewest sheets with unpacking, of cubes, and with a number that is skipped, that are planned,
/// against the fast rewrite and against the literal rules.
const FEWEST_DRESSED: [[usize; DRESSED]; 2] =
    [[50_000, 50_000, 3000], [1_000_000, 1_000_000, 30_000]];
/// The fewest lists of choices with early ends, and how many of them have to be done before the claim.
const FEWEST_EARLY: [usize; 2] = [100_000, 10_000];
/// The fewest bundles with releases that are checked, against either.
const FEWEST_RELEASES: usize = 1_000_000;
/// The fewest reports of drifts, and the fewest drifts above the greatest work.
const FEWEST_DRIFTS: [usize; 2] = [50_000, 500];
/// The fewest calls of each function that are held against the literal rules.
const FEWEST_OF_EACH: usize = 1_000_000;
/// How often each family of small inputs is run, so that they share the threads evenly.
const SMALL_RUNS: usize = 20;

fn main() -> ExitCode {
    let seed = match env::args().nth(1).map(|seed| seed.parse()) {
        None => 1,
        Some(Ok(seed)) => seed,
        Some(Err(_)) => {
            eprintln!("usage: compare [SEED]");
            return ExitCode::FAILURE;
        }
    };
    match compare(seed) {
        Ok(calls) => {
            println!("compare: {calls} calls, 0 differences");
            ExitCode::SUCCESS
        }
        Err(failure) => {
            println!("{failure}");
            ExitCode::FAILURE
        }
    }
}

/// Both comparisons: how many calls they made, or why they do not count.
fn compare(seed: u64) -> Result<usize, String> {
    let fast = hold(families::FAST, 1, seed, fast_shortfalls)?;
    let literal = hold(families::LITERAL, SMALL_RUNS, seed, literal_shortfalls)?;
    Ok(fast + literal)
}

/// Holds the product against some rules on these families, and prints what came; how many calls it
/// made.
fn hold<R: Rules>(
    families: &[Family<R>],
    times: usize,
    seed: u64,
    shortfalls: fn(&Tally) -> Vec<String>,
) -> Result<usize, String> {
    println!("against {}", R::NAME);
    let reports = families::run(families, times, seed, THREADS);
    let mut tally = Tally::default();
    for Report { name, tally: calls, .. } in &reports {
        println!("{name:<26}{:>9} calls", calls.calls());
        tally.add(calls);
    }
    if let Some((name, text)) = reports.iter().find_map(difference) {
        return Err(format!("{text}compare: a difference among {name}, seed {seed}"));
    }
    tally.print();
    let calls = tally.calls();
    let mut missing = tally.missed();
    missing.extend(shortfalls(&tally));
    match missing.is_empty() {
        true => Ok(calls),
        false => Err(format!("{}\ncompare: {calls} calls are not enough", missing.join("\n"))),
    }
}

fn difference(report: &Report) -> Option<(&'static str, &str)> {
    let Err(Difference(text)) = &report.outcome else { return None };
    Some((report.name, text))
}

/// What was held against the fast rewrite too seldom.
fn fast_shortfalls(tally: &Tally) -> Vec<String> {
    let counts = [
        ("calls", tally.calls(), FEWEST_CALLS),
        ("plans", tally.calls_of(Function::Plan), FEWEST_PLANS),
        ("pairs", tally.calls_of(Function::Check), FEWEST_PAIRS),
        ("pairs that get stuck", tally.answers(Function::Check, STUCK), FEWEST_STUCK),
        ("formulas", tally.calls_of(Function::Weight), FEWEST_FORMULAS),
        ("least times", tally.answers(Function::Least, 0), FEWEST_LEAST),
        ("test loads", tally.calls_of(Function::Generate), FEWEST_LOADS),
        ("bundles with releases", tally.with_releases(), FEWEST_RELEASES),
        ("reports of drifts", tally.calls_of(Function::Drift), FEWEST_DRIFTS[0]),
        ("far drifts", tally.drifts()[2], FEWEST_DRIFTS[1]),
    ];
    counts.into_iter().chain(tally.dressed(FEWEST_DRESSED[0])).filter_map(shortfall).collect()
}

/// What was held against the literal rules too seldom.
fn literal_shortfalls(tally: &Tally) -> Vec<String> {
    let calls = FUNCTIONS.map(|f| (f.name(), tally.calls_of(f), FEWEST_OF_EACH));
    let more = [
        ("lists with early ends", tally.early_ends()[0], FEWEST_EARLY[0]),
        ("lists done before the claim", tally.early_ends()[1], FEWEST_EARLY[1]),
        ("bundles with releases", tally.with_releases(), FEWEST_RELEASES),
        ("far drifts", tally.drifts()[2], FEWEST_DRIFTS[1]),
    ];
    let inputs = tally.dressed(FEWEST_DRESSED[1]).chain(more);
    calls.into_iter().chain(inputs).filter_map(shortfall).collect()
}

/// Something that came less often than it has to.
fn shortfall((what, count, fewest): (&str, usize, usize)) -> Option<String> {
    (count < fewest).then(|| format!("{what}: {count}, fewer than {fewest}"))
}
