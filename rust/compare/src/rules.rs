//! What the library is held against, the fast rewrite and the literal rules, in the same words.

use crate::tally::Tally;
use inputs::loads::Load;
use inputs::{bundles, sheets};
use literal::better::Decided;
use literal::interface::Tables;
use literal::Refusal;
use reference::better::better;
use reference::bundle::{from_values, Bundle};
use reference::checker::merits;
use reference::drift::report;
use reference::planner::{plan_with, Turn};
use reference::release::pass;
use reference::sheet::Sheet;
use reference::{graph, listing};

/// An answer of the rules.
pub type Answered<T> = Result<T, Refusal>;

/// The answer of each function to a caller who lends enough.
pub trait Rules {
    /// What they are called in print.
    const NAME: &'static str;

    fn read_sheet(sheet: &[u8]) -> Answered<Tables>;
    fn write_sheet(values: &sheets::Sheet) -> Answered<Vec<u8>>;
    fn generate(load: Load) -> Answered<Vec<u8>>;
    fn levels(sheet: &[u8]) -> Answered<Vec<u32>>;
    fn read_bundle(sheet: &[u8], bundle: &[u8]) -> Answered<(Vec<u16>, u32)>;
    fn write_bundle(sheet: &[u8], values: &bundles::Bundle) -> Answered<Vec<u8>>;
    fn check(sheet: &[u8], bundle: &[u8]) -> Answered<()>;
    fn release(sheet: &[u8], bundle: &[u8]) -> Answered<Vec<u8>>;
    fn drift(sheet: &[u8], bundle: &[u8]) -> Answered<Vec<u8>>;
    fn weight(text: &[u8], letters: &[u32]) -> Answered<u16>;
    fn least(sheet: &[u8]) -> Answered<Vec<u8>>;

    /// The better of two bundles, one of the slices themselves; counts what decided.
    fn better<'a>(
        sheet: &[u8],
        first: &'a [u8],
        second: &'a [u8],
        tally: &mut Tally,
    ) -> Answered<&'a [u8]>;

    /// The bundle and the listing of a plan; counts which rules gave the processors.
    fn plan(sheet: &[u8], tally: &mut Tally) -> (Answered<Vec<u8>>, Vec<u8>);

    /// Shows the started machine, or its refusal.
    fn start<T>(
        sheet: &[u8],
        bundle: &[u8],
        then: impl FnOnce(Answered<&mut dyn Machine>) -> T,
    ) -> T;
}

/// A started machine.
pub trait Machine {
    fn programmes(&self) -> usize;
    fn links(&self) -> usize;

    /// Whether the choice stepped.
    fn step(&mut self, choice: u64) -> bool;

    /// How many of these choices stepped.
    fn run(&mut self, choices: &[u8]) -> u64;
    fn left(&self) -> u64;

    /// Clock, position and store in use of a processor, 0 where it has no programme.
    fn processor(&self, k: u64) -> [u32; 3];

    /// One more than a link's stamp, 0 while its message is not sent or where there is no such
    /// link.
    fn stamp(&self, link: u64) -> u64;
}

/// The fast rewrite.
pub struct Fast;

impl Rules for Fast {
    const NAME: &'static str = "the fast rewrite";

    fn read_sheet(sheet: &[u8]) -> Answered<Tables> {
        let sheet = read(sheet)?;
        let mut tables = Tables {
            tasks: vec![0; 2 * sheet.tasks.len()],
            links: vec![0; 4 * sheet.links.len()],
            board: sheet.board(),
        };
        sheet.put_values(&mut tables.tasks, &mut tables.links).map_err(refusal)?;
        Ok(tables)
    }

    fn write_sheet(values: &sheets::Sheet) -> Answered<Vec<u8>> {
        let sheets::Sheet { processors, limit, unpacking, cube, ref tasks, ref links } = *values;
        let sheet = Sheet::from_values(processors, limit, unpacking, cube != 0, tasks, links);
        sheet.map(|sheet| sheet.to_bytes()).map_err(refusal)
    }

    fn generate(load: Load) -> Answered<Vec<u8>> {
        let Load { seed, tasks, tries, processors, limit } = load;
        let load = reference::load::Load { seed, tasks, tries, processors, limit };
        load.to_bytes().map_err(refusal)
    }

    fn levels(sheet: &[u8]) -> Answered<Vec<u32>> {
        read(sheet).map(|sheet| graph::levels(&sheet))
    }

    fn read_bundle(sheet: &[u8], bundle: &[u8]) -> Answered<(Vec<u16>, u32)> {
        let sheet = read(sheet)?;
        let bundle = Bundle::read(&sheet, bundle).map_err(refusal)?;
        Ok((bundle.values(), bundle.claim))
    }

    fn write_bundle(sheet: &[u8], values: &bundles::Bundle) -> Answered<Vec<u8>> {
        from_values(&read(sheet)?, &values.commands, values.claim).map_err(refusal)
    }

    fn check(sheet: &[u8], bundle: &[u8]) -> Answered<()> {
        reference::interface::check(sheet, bundle).map_err(refusal)
    }

    fn release(sheet: &[u8], bundle: &[u8]) -> Answered<Vec<u8>> {
        pass(&read(sheet)?, bundle).map_err(refusal)
    }

    fn drift(sheet: &[u8], bundle: &[u8]) -> Answered<Vec<u8>> {
        report(&read(sheet)?, bundle).map_err(refusal)
    }

    fn better<'a>(
        sheet: &[u8],
        first: &'a [u8],
        second: &'a [u8],
        tally: &mut Tally,
    ) -> Answered<&'a [u8]> {
        let sheet = read(sheet)?;
        let kept = better(&sheet, first, second).map_err(refusal)?;
        tally.count_choice(match [first, second].map(|bundle| merits(&sheet, bundle)) {
            [Ok(one), Ok(other)] if one.claim != other.claim => 1,
            [Ok(one), Ok(other)] if one.runners != other.runners => 2,
            [Ok(_), Ok(_)] if first != second => 3,
            [Ok(_), Ok(_)] => 4,
            _ => 0,
        });
        Ok(kept)
    }

    fn weight(text: &[u8], letters: &[u32]) -> Answered<u16> {
        reference::interface::weight(text, letters).map_err(refusal)
    }

    fn least(sheet: &[u8]) -> Answered<Vec<u8>> {
        reference::least::least(&read(sheet)?).map_err(refusal)
    }

    fn plan(sheet: &[u8], tally: &mut Tally) -> (Answered<Vec<u8>>, Vec<u8>) {
        let sheet = Sheet::read(sheet);
        let plan = match &sheet {
            Ok(sheet) => plan_with(sheet, |Turn { step, join_barred, share_barred, .. }| {
                tally.count_turn(step as usize, [join_barred, share_barred])
            }),
            Err(refusal) => Err(*refusal),
        };
        if let Ok(plan) = &plan {
            tally.count_plan(plan.placements.iter().map(|placement| placement.processor.into()));
        }
        let lines = listing::lines(&plan);
        let bundle = sheet.and_then(|sheet| plan.map(|plan| plan.to_bundle(&sheet)));
        (bundle.map_err(refusal), lines)
    }

    fn start<T>(
        sheet: &[u8],
        bundle: &[u8],
        then: impl FnOnce(Answered<&mut dyn Machine>) -> T,
    ) -> T {
        let sheet = Sheet::read(sheet);
        let started = sheet
            .as_ref()
            .map_err(|&refusal| refusal)
            .and_then(|sheet| reference::machine::Machine::start(sheet, bundle));
        match started {
            Ok(mut machine) => then(Ok(&mut machine)),
            Err(reason) => then(Err(refusal(reason))),
        }
    }
}

fn read(sheet: &[u8]) -> Answered<Sheet> {
    Sheet::read(sheet).map_err(refusal)
}

fn refusal(refusal: reference::Refusal) -> Refusal {
    Refusal { number: refusal.number, place: refusal.place }
}

impl Machine for reference::machine::Machine<'_> {
    fn programmes(&self) -> usize {
        self.processors().len()
    }

    fn links(&self) -> usize {
        self.links()
    }

    fn step(&mut self, choice: u64) -> bool {
        self.step(choice).stepped()
    }

    fn run(&mut self, choices: &[u8]) -> u64 {
        choices.iter().filter(|&&choice| self.step(choice.into()).stepped()).count() as u64
    }

    fn left(&self) -> u64 {
        self.left() as u64
    }

    fn processor(&self, k: u64) -> [u32; 3] {
        let processor = usize::try_from(k).ok().and_then(|k| self.processors().get(k));
        processor.map_or([0; 3], |p| [p.clock, p.position as u32, p.store])
    }

    fn stamp(&self, link: u64) -> u64 {
        let stamp = usize::try_from(link).ok().and_then(|link| self.stamp(link));
        stamp.map_or(0, |stamp| u64::from(stamp) + 1)
    }
}

/// The literal rules, for small inputs.
pub struct Literal;

impl Rules for Literal {
    const NAME: &'static str = "the literal rules";

    fn read_sheet(sheet: &[u8]) -> Answered<Tables> {
        literal::interface::read_sheet(sheet)
    }

    fn write_sheet(values: &sheets::Sheet) -> Answered<Vec<u8>> {
        let sheets::Sheet { processors, limit, unpacking, cube, ref tasks, ref links } = *values;
        literal::interface::write_sheet(processors, limit, unpacking, cube, tasks, links)
    }

    fn generate(load: Load) -> Answered<Vec<u8>> {
        let Load { seed, tasks, tries, processors, limit } = load;
        literal::interface::generate(seed, tasks, tries, processors, limit)
    }

    fn levels(sheet: &[u8]) -> Answered<Vec<u32>> {
        literal::interface::levels(sheet)
    }

    fn read_bundle(sheet: &[u8], bundle: &[u8]) -> Answered<(Vec<u16>, u32)> {
        literal::interface::read_bundle(sheet, bundle)
    }

    fn write_bundle(sheet: &[u8], values: &bundles::Bundle) -> Answered<Vec<u8>> {
        literal::interface::write_bundle(sheet, &values.commands, values.claim)
    }

    fn check(sheet: &[u8], bundle: &[u8]) -> Answered<()> {
        literal::interface::check(sheet, bundle)
    }

    fn release(sheet: &[u8], bundle: &[u8]) -> Answered<Vec<u8>> {
        literal::interface::release(sheet, bundle)
    }

    fn drift(sheet: &[u8], bundle: &[u8]) -> Answered<Vec<u8>> {
        literal::interface::drift(sheet, bundle)
    }

    fn better<'a>(
        sheet: &[u8],
        first: &'a [u8],
        second: &'a [u8],
        tally: &mut Tally,
    ) -> Answered<&'a [u8]> {
        let (kept, decided) = literal::interface::better(sheet, first, second)?;
        tally.count_choice(match decided {
            Decided::Acceptance => 0,
            Decided::Rule(rule) => 1 + rule.min(2),
            Decided::Nothing => 4,
        });
        Ok(kept)
    }

    fn weight(text: &[u8], letters: &[u32]) -> Answered<u16> {
        literal::interface::weight(text, letters)
    }

    fn least(sheet: &[u8]) -> Answered<Vec<u8>> {
        literal::interface::least(sheet)
    }

    fn plan(sheet: &[u8], tally: &mut Tally) -> (Answered<Vec<u8>>, Vec<u8>) {
        let placed = literal::interface::placed(sheet);
        for placed in placed.iter().flatten() {
            tally.count_turn(placed.step as usize, [placed.join_guarded, placed.share_guarded]);
        }
        tally.count_plan(placed.iter().flatten().map(|placed| placed.processor));
        (literal::interface::plan(sheet), literal::interface::listing(sheet))
    }

    fn start<T>(
        sheet: &[u8],
        bundle: &[u8],
        then: impl FnOnce(Answered<&mut dyn Machine>) -> T,
    ) -> T {
        literal::interface::start(sheet, bundle, |started| {
            then(started.map(|machine| machine as &mut dyn Machine))
        })
    }
}

impl Machine for literal::machine::Machine<'_> {
    fn programmes(&self) -> usize {
        self.processors.len()
    }

    fn links(&self) -> usize {
        self.stamps.len()
    }

    fn step(&mut self, choice: u64) -> bool {
        self.step(choice)
    }

    fn run(&mut self, choices: &[u8]) -> u64 {
        literal::interface::run(self, choices)
    }

    fn left(&self) -> u64 {
        self.left() as u64
    }

    fn processor(&self, k: u64) -> [u32; 3] {
        literal::interface::processor(self, k)
    }

    fn stamp(&self, link: u64) -> u64 {
        literal::interface::stamp(self, link)
    }
}
