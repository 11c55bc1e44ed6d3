//! Each function of the library, from bytes to its answer to a caller who lends enough (12 and 13
//! are in [`crate::refusal`]): "then the sheet from its first byte [..] then the planner [..] or
//! the checker".

use crate::better::{self, Decided};
use crate::bundle::Bundle;
use crate::checker;
use crate::drift;
use crate::formulas;
use crate::least;
use crate::levels;
use crate::listing::lines;
use crate::load;
use crate::machine::Machine;
use crate::placing::{place, Placed, Rules};
use crate::refusal::{output, Refusal};
use crate::release;
use crate::sheet::{Link, Sheet, Task};

/// The tables of a sheet, as docs/INTERFACE.md has them.
#[derive(Clone, Debug, PartialEq, Eq)]
pub struct Tables {
    /// "two values a task (work, store)".
    pub tasks: Vec<u16>,
    /// "four a link (source, target, cost, bytes)".
    pub links: Vec<u16>,
    /// "the processors, the store limit, the number of tasks, the number of links, the unpacking time"
    /// and "1 for a cube".
    pub board: [u32; 6],
}

impl Tables {
    /// "12 with twice the number of tasks where `tasks` is shorter, else with four times the number
    /// of links where `links` is".
    pub fn lent(&self, tasks: usize, links: usize) -> Result<(), Refusal> {
        output(self.tasks.len(), tasks)?;
        output(self.links.len(), links)
    }
}

/// Reads a sheet.
pub fn read_sheet(sheet: &[u8]) -> Result<Tables, Refusal> {
    let sheet = Sheet::read(sheet)?;
    let (tasks, links) = values(&sheet.tasks, &sheet.links);
    Ok(Tables {
        tasks,
        links,
        board: [
            sheet.processors as u32,
            sheet.limit as u32,
            sheet.tasks.len() as u32,
            sheet.links.len() as u32,
            sheet.unpacking as u32,
            sheet.cube.into(),
        ],
    })
}

/// "two values a task (work, store)", "four a link (source, target, cost, bytes)".
fn values(tasks: &[Task], links: &[Link]) -> (Vec<u16>, Vec<u16>) {
    let of_task = |task: &Task| [task.work, task.store].map(|value| value as u16);
    let of_link =
        |link: &Link| [link.from as u64, link.to as u64, link.cost, link.bytes].map(|v| v as u16);
    (tasks.iter().flat_map(of_task).collect(), links.iter().flat_map(of_link).collect())
}

/// The bytes of a sheet's values.
pub fn write_sheet(
    processors: u8,
    limit: u32,
    unpacking: u16,
    cube: u8,
    tasks: &[u16],
    links: &[u16],
) -> Result<Vec<u8>, Refusal> {
    Sheet::write(processors, limit, unpacking, cube, tasks, links)
}

/// The bytes of the sheet that a seed gives, which no rule of the reader refuses.
pub fn generate(
    seed: u32,
    tasks: u32,
    tries: u32,
    processors: u32,
    limit: u32,
) -> Result<Vec<u8>, Refusal> {
    let (tasks, links) = load::made(seed, tasks, tries, processors)?;
    let (tasks, links) = values(&tasks, &links);
    Ok(Sheet::write(processors as u8, limit, 0, 0, &tasks, &links).expect("read without refusal"))
}

/// The b-level of each task.
pub fn levels(sheet: &[u8]) -> Result<Vec<u32>, Refusal> {
    let levels = levels::levels(&Sheet::read(sheet)?);
    Ok(levels.into_iter().map(|level| level as u32).collect())
}

/// The values of a bundle's commands, and its claim.
pub fn read_bundle(sheet: &[u8], bundle: &[u8]) -> Result<(Vec<u16>, u32), Refusal> {
    Bundle::values(&Sheet::read(sheet)?, bundle)
}

/// The bytes of a bundle's values.
pub fn write_bundle(sheet: &[u8], commands: &[u16], claim: u32) -> Result<Vec<u8>, Refusal> {
    Bundle::write(&Sheet::read(sheet)?, commands, claim)
}

/// Whether a bundle is accepted.
pub fn check(sheet: &[u8], bundle: &[u8]) -> Result<(), Refusal> {
    let sheet = Sheet::read(sheet)?;
    checker::check(&sheet, &Bundle::read(&sheet, bundle)?)
}

/// The bytes of a bundle with its releases: "a refused one gets the checker's refusal".
pub fn release(sheet: &[u8], bundle: &[u8]) -> Result<Vec<u8>, Refusal> {
    let sheet = Sheet::read(sheet)?;
    let read = Bundle::read(&sheet, bundle)?;
    checker::check(&sheet, &read)?;
    Ok(release::passed(&sheet, &read, bundle))
}

/// How far each task's time may drift: "each a u32 of four bytes, lowest first"; "Sheet and bundle are
/// refused as the checker refuses them".
pub fn drift(sheet: &[u8], bundle: &[u8]) -> Result<Vec<u8>, Refusal> {
    let sheet = Sheet::read(sheet)?;
    let bundle = Bundle::read(&sheet, bundle)?;
    checker::check(&sheet, &bundle)?;
    let report = drift::report(&sheet, &bundle);
    Ok(report.into_iter().flat_map(|d| (d as u32).to_le_bytes()).collect())
}

/// The better of two bundles, and what decided.
pub fn better<'a>(
    sheet: &[u8],
    first: &'a [u8],
    second: &'a [u8],
) -> Result<(&'a [u8], Decided), Refusal> {
    better::better(&Sheet::read(sheet)?, first, second)
}

/// Where and when each task runs, in placing order.
pub fn placed(sheet: &[u8]) -> Result<Vec<Placed>, Refusal> {
    place(&Sheet::read(sheet)?, Rules::WHOLE)
}

/// The bytes of a plan's bundle.
pub fn plan(sheet: &[u8]) -> Result<Vec<u8>, Refusal> {
    let placed = placed(sheet)?;
    Ok(Bundle::of_plan(&Sheet::read(sheet)?, &placed))
}

/// The listing of a plan or of its refusal.
pub fn listing(sheet: &[u8]) -> Vec<u8> {
    lines(&placed(sheet)).into_bytes()
}

/// The bytes of the best bundle of a small sheet.
pub fn least(sheet: &[u8]) -> Result<Vec<u8>, Refusal> {
    least::least(&Sheet::read(sheet)?)
}

/// Starts the machine, and shows it or its refusal.
pub fn start<T>(
    sheet: &[u8],
    bundle: &[u8],
    then: impl FnOnce(Result<&mut Machine, Refusal>) -> T,
) -> T {
    let read = Sheet::read(sheet).and_then(|sheet| {
        let bundle = Bundle::read(&sheet, bundle)?;
        Ok((sheet, bundle))
    });
    match &read {
        Ok((sheet, bundle)) => match Machine::start(sheet, bundle) {
            Ok(mut machine) => then(Ok(&mut machine)),
            Err(refusal) => then(Err(refusal)),
        },
        Err(refusal) => then(Err(*refusal)),
    }
}

/// docs/INTERFACE.md: "makes these choices, one after the other", and how many of them stepped.
pub fn run(machine: &mut Machine, choices: &[u8]) -> u64 {
    choices.iter().filter(|&&choice| machine.step(choice.into())).count() as u64
}

/// "clock, position and store in use of processor k, each 0 where it has no programme".
pub fn processor(machine: &Machine, k: u64) -> [u32; 3] {
    let processor = usize::try_from(k).ok().and_then(|k| machine.processors.get(k));
    let processor = processor.copied().unwrap_or_default();
    [processor.clock as u32, processor.position as u32, processor.store as u32]
}

/// "one more than the stamp of the link's message, or 0 while it is not sent".
pub fn stamp(machine: &Machine, link: u64) -> u64 {
    let stamp = usize::try_from(link).ok().and_then(|link| machine.stamps.get(link).copied());
    stamp.flatten().map_or(0, |stamp| stamp + 1)
}

/// The weight of a formula.
pub fn weight(text: &[u8], letters: &[u32]) -> Result<u16, Refusal> {
    formulas::weight(text, letters)
}
