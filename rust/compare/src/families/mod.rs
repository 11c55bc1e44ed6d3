//! The families of inputs, each with a comparison of its own, so that the same seed makes the same
//! inputs on any number of threads.

mod bare;
mod choices;
mod cubes;
mod dressed;
mod drifts;
mod early;
mod formats;
mod formulas;
mod least;
mod loads;
mod machine;
mod plans;
mod releases;
mod small;
mod unpacking;

use crate::comparison::{Comparison, Outcome};
use crate::rules::{Fast, Literal, Rules};
use crate::tally::Tally;
use inputs::{bundles, damage, sheets, Random};
use reference::planner;
use reference::sheet::Sheet;
use reference::trials;
use std::sync::atomic::{AtomicUsize, Ordering};
use std::sync::Mutex;
use std::thread;

/// A family: its name, and what makes its inputs and compares on each.
pub type Family<R> = (&'static str, fn(&mut Comparison<R>) -> Outcome);

/// The families of all sizes.
pub const FAST: &[Family<Fast>] = &[
    ("trial sheets", formats::trial_sheets),
    ("refused sheets", formats::refused_sheets),
    ("bare boards", bare::boards),
    ("bare boards byte by byte", bare::byte_by_byte),
    ("valid sheets", formats::valid_sheets),
    ("damaged sheets", formats::damaged_sheets),
    ("damaged values of sheets", formats::damaged_sheet_values),
    ("circles", formats::circles),
    ("brimful sheets", formats::brimful_sheets),
    ("cut sheets", formats::cut_sheets),
    ("bundles of the form", formats::bundles_of_the_form),
    ("damaged bundles", formats::damaged_bundles),
    ("damaged values of bundles", formats::damaged_bundle_values),
    ("cut bundles", formats::cut_bundles),
    ("long inputs", formats::long_inputs),
    ("trial plans", plans::trials),
    ("any plans", plans::any),
    ("plans with ties", plans::ties),
    ("plans under the guard", plans::guarded),
    ("plans with little store", plans::little_store),
    ("plans with free messages", plans::free_messages),
    ("shared processors", plans::shared_processors),
    ("plans of greatest values", plans::greatest_values),
    ("plans of faulty sheets", plans::faulty_sheets),
    ("plans with unpacking", unpacking::plans),
    ("largest with unpacking", unpacking::largest),
    ("bundles with unpacking", unpacking::small_bundles),
    ("damaged unpacking", unpacking::damaged),
    ("unpacking everywhere", unpacking::every_offset),
    ("plans on cubes", cubes::plans),
    ("cubes with skipped numbers", cubes::far),
    ("largest on cubes", cubes::largest),
    ("bundles on cubes", cubes::small_bundles),
    ("damaged cubes", cubes::damaged),
    ("cubes everywhere", cubes::every_offset),
    ("least times", least::up_to_six),
    ("least times of three", least::every_three),
    ("least times of trials", least::trials),
    ("what is not small", least::not_small),
    ("trial pairs", machine::trial_pairs),
    ("right pairs", machine::right),
    ("wrong claims", machine::wrong_claims),
    ("moved commands", machine::moved_commands),
    ("exchanged messages", machine::exchanged_messages),
    ("tangled programmes", machine::tangled),
    ("stores at the limit", machine::stores_at_the_limit),
    ("damaged bytes of pairs", machine::damaged),
    ("sheets in fault", machine::sheets_in_fault),
    ("bundles of other sheets", machine::other_sheets),
    ("cut pairs", machine::cut),
    ("largest pairs", machine::largest),
    ("any words as state", machine::any_states),
    ("releases", releases::many),
    ("releases everywhere", releases::everywhere),
    ("passes", releases::passes),
    ("trial passes", releases::trials),
    ("large passes", releases::large),
    ("drifts", drifts::many),
    ("trial drifts", drifts::trials),
    ("large drifts", drifts::large),
    ("rivals", choices::rivals),
    ("even rivals", choices::even),
    ("bare rivals", choices::bare),
    ("both refused", choices::refused),
    ("rivals of faulty sheets", choices::faulty_sheets),
    ("cut rivals", choices::cut),
    ("largest rivals", choices::largest),
    ("every short text", formulas::every_short),
    ("small formulas", formulas::small),
    ("allowed formulas", formulas::allowed),
    ("damaged formulas", formulas::damaged),
    ("nested formulas", formulas::nested),
    ("formulas of edges", formulas::edges),
    ("long texts", formulas::long_texts),
    ("loads of the first seeds", loads::first_seeds),
    ("small loads", loads::small),
    ("loads of edges", loads::edges),
    ("loads out of range", loads::outside),
    ("any loads", loads::any),
    ("planned loads", loads::planned),
];

/// The families of small inputs, each of which is for several runs.
pub const LITERAL: &[Family<Literal>] = &[
    ("refused sheets", formats::refused_sheets),
    ("bare boards", bare::boards),
    ("bare boards byte by byte", bare::byte_by_byte),
    ("small boards", small::boards),
    ("small shared processors", small::shared_processors),
    ("small with unpacking", unpacking::small_boards),
    ("bundles with unpacking", unpacking::small_bundles),
    ("damaged unpacking", unpacking::damaged),
    ("unpacking everywhere", unpacking::every_offset),
    ("small cubes", cubes::small_boards),
    ("bundles on cubes", cubes::small_bundles),
    ("damaged cubes", cubes::damaged),
    ("cubes everywhere", cubes::every_offset),
    ("least times", least::up_to_five),
    ("least times of three", least::every_three),
    ("what is not small", least::not_small),
    ("damaged small sheets", small::damaged_sheets),
    ("over-full sheets", small::over_full_sheets),
    ("small circles", small::circles),
    ("right small bundles", small::right_bundles),
    ("arranged small bundles", small::arranged_bundles),
    ("damaged small bundles", small::damaged_bundles),
    ("small sheets in fault", small::sheets_in_fault),
    ("early ends", early::ends),
    ("releases", releases::small_ones),
    ("releases everywhere", releases::everywhere),
    ("passes", releases::passes),
    ("trial passes", releases::trials),
    ("drifts", drifts::raised),
    ("refused drifts", drifts::refused),
    ("trial drifts", drifts::trials),
    ("even rivals", choices::even),
    ("bare rivals", choices::bare),
    ("every short text", formulas::every_short),
    ("small formulas", formulas::small),
    ("nested formulas", formulas::few_nested),
    ("formulas of edges", formulas::edges),
    ("loads of the first seeds", loads::first_seeds),
    ("small loads", loads::small),
    ("loads of edges", loads::edges),
    ("loads out of range", loads::outside),
];

/// What came of a family.
pub struct Report {
    pub name: &'static str,
    pub tally: Tally,
    pub outcome: Outcome,
}

/// Runs every family so many times over, on so many threads; the reports are in the order of the
/// families.
pub fn run<R: Rules>(
    families: &[Family<R>],
    times: usize,
    seed: u64,
    threads: usize,
) -> Vec<Report> {
    let next = AtomicUsize::new(0);
    let parts = Mutex::new(Vec::new());
    let work = || loop {
        let number = next.fetch_add(1, Ordering::Relaxed);
        let Some((_, family)) = families.get(number / times) else { return };
        let mut comparison = Comparison::new(seed.wrapping_mul(1000).wrapping_add(number as u64));
        let outcome = family(&mut comparison);
        if outcome.is_err() {
            // Nothing more is started.
            next.store(families.len() * times, Ordering::Relaxed);
        }
        parts.lock().expect("no family panics").push((number, comparison.tally, outcome));
    };
    thread::scope(|scope| (0..threads).for_each(|_| drop(scope.spawn(work))));
    let mut parts = parts.into_inner().expect("no family panics");
    parts.sort_by_key(|&(number, ..)| number);
    let report = |&(name, _): &Family<R>| Report { name, tally: Tally::default(), outcome: Ok(()) };
    let mut reports: Vec<Report> = families.iter().map(report).collect();
    for (number, tally, outcome) in parts {
        let report = &mut reports[number / times];
        report.tally.add(&tally);
        if report.outcome.is_ok() {
            report.outcome = outcome;
        }
    }
    reports
}

/// The trial files whose names end so.
fn trial_files(end: &str) -> Vec<Vec<u8>> {
    let files = trials::files().into_iter().filter(|(name, _)| name.ends_with(end));
    files.map(|(_, bytes)| bytes).collect()
}

/// A sheet in fault: a circle, a task too many, or the damaged bytes of these values.
fn faulty_sheet(random: &mut Random, values: &sheets::Sheet, round: usize) -> Vec<u8> {
    match round % 8 {
        1 => sheets::circle(random, 1 + round % 40).encode(),
        2 => sheets::Sheet { tasks: [1, 1].repeat(257), ..values.clone() }.encode(),
        _ => damage::few(random, values.encode(), damage::sheet_command),
    }
}

/// A largest sheet with a task more, perhaps out of range, and with a link more, perhaps loose or
/// doubled.
fn over_full(random: &mut Random, full: &sheets::Sheet) -> [sheets::Sheet; 2] {
    let mut more_tasks = full.clone();
    more_tasks.tasks.extend([random.below(2) as u16, 7]);
    let mut more_links = full.clone();
    more_links.links.extend([3, random.below(300) as u16, 0, 0]);
    [more_tasks, more_links]
}

/// Damages the values of a sheet one to three times.
fn damage_sheet(random: &mut Random, values: &mut sheets::Sheet) {
    for _ in 0..random.within(1..=3) {
        match random.below(9) {
            0 => values.processors = random.bits() as u8,
            1 => values.limit = random.bits() as u32,
            2 => values.unpacking = random.pick(&[0, 1, 65_535]),
            3 => values.cube = random.pick(&[0, 1, 255]),
            4..=5 => damage::values(random, &mut values.tasks, 2),
            _ => damage::values(random, &mut values.links, 4),
        }
    }
}

/// Damages the values of a bundle one to three times, and now and then puts a claim among them.
fn damage_bundle(random: &mut Random, bundle: &mut bundles::Bundle) {
    for _ in 0..random.within(1..=3) {
        damage::values(random, &mut bundle.commands, 2);
    }
    if random.once_in(8) {
        let at = 2 * random.below(bundle.commands.len() / 2 + 1);
        bundle.commands.splice(at..at, [0x5A, random.bits() as u16]);
    }
}

/// Gives another claim, mostly off by one.
fn claim_wrongly(random: &mut Random, bundle: &mut bundles::Bundle) {
    bundle.claim = match random.below(5) {
        0..=1 => bundle.claim.wrapping_sub(1),
        2..=3 => bundle.claim.wrapping_add(1),
        _ => random.bits() as u32,
    }
}

/// Gives the limit that one of the programmes just needs, or one less or more.
fn limit_as_needed(random: &mut Random, sheet: &mut sheets::Sheet, bundle: &mut bundles::Bundle) {
    let needs = bundles::needs(sheet, bundle);
    // A bare board's bundle may have no programme.
    let need = match random.once_in(3) && !needs.is_empty() {
        true => random.pick(&needs),
        false => needs.into_iter().max().unwrap_or(0),
    };
    sheet.limit = (need + random.below(3) as u32).saturating_sub(1);
}

/// A bundle with every run and message right: of the planner or of a random run.
fn right_bundle(random: &mut Random, values: &sheets::Sheet) -> bundles::Bundle {
    match random.once_in(2) {
        true => planned(random, values),
        false => bundles::orderly(random, values),
    }
}

/// Mostly a small sheet, and every eighth time any valid one.
fn mostly_small(c: &mut Comparison, round: usize) -> sheets::Sheet {
    match round % 8 {
        0 => sheets::valid(&mut c.random),
        _ => sheets::small(&mut c.random),
    }
}

/// Any valid sheet, and now and then a largest one.
fn seldom_largest(c: &mut Comparison, round: usize) -> sheets::Sheet {
    match round % 64 {
        0 => sheets::largest(&mut c.random),
        _ => sheets::valid(&mut c.random),
    }
}

/// A sheet of any size with store enough, once in so many rounds a largest one, and some with unpacking;
/// and a bundle for it, planned or of a random run.
fn of_any_size(
    c: &mut Comparison,
    round: usize,
    largest: usize,
) -> (sheets::Sheet, bundles::Bundle) {
    let random = &mut c.random;
    let mut values = match round % largest {
        0 => sheets::largest(random),
        _ => sheets::valid(random),
    };
    values.limit = u32::MAX;
    if round.is_multiple_of(3) {
        sheets::unpack(random, &mut values);
    }
    let bundle = match round % 2 {
        0 => planned(random, &values),
        _ => bundles::orderly(random, &values),
    };
    (values, bundle)
}

/// The bundle of the planner for a valid sheet, or of a random run where the planner has none.
fn planned(random: &mut Random, values: &sheets::Sheet) -> bundles::Bundle {
    let sheet = Sheet::read(&values.encode()).expect("a valid sheet");
    let Ok(plan) = planner::plan(&sheet) else { return bundles::orderly(random, values) };
    let bytes = plan.to_bundle(&sheet);
    let bundle = reference::bundle::Bundle::read(&sheet, &bytes).expect("the form of a plan");
    bundles::Bundle { commands: bundle.values(), claim: bundle.claim }
}
