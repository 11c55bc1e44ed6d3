//! The rules from bytes to lent buffers, as the product's C interface has them, without a work area.

use crate::bundle::{self, Bundle};
use crate::drift::report;
use crate::load::Load;
use crate::refusal::{lend, Refusal};
use crate::release::pass;
use crate::sheet::Sheet;
use crate::{better, checker, formula, graph, least, listing, planner};

/// Reads a sheet into tables of values; gives its board (1 to 8, 10, 12).
pub fn read_sheet(sheet: &[u8], tasks: &mut [u16], links: &mut [u16]) -> Result<[u32; 6], Refusal> {
    let sheet = Sheet::read(sheet)?;
    sheet.put_values(tasks, links)?;
    Ok(sheet.board())
}

/// Writes the sheet of these values, a cube where `cube` is not 0, and gives its length (1 to 8, 10, 12).
pub fn write_sheet(
    processors: u8,
    limit: u32,
    unpacking: u16,
    cube: u8,
    tasks: &[u16],
    links: &[u16],
    out: &mut [u8],
) -> Result<usize, Refusal> {
    let sheet = Sheet::from_values(processors, limit, unpacking, cube != 0, tasks, links)?;
    lend(&sheet.to_bytes(), out)
}

/// Writes the sheet that a seed gives and gives its length (6, 12).
pub fn generate(load: Load, out: &mut [u8]) -> Result<usize, Refusal> {
    lend(&load.to_bytes()?, out)
}

/// Writes the level of each task and gives their count (1 to 8, 10, 12).
pub fn levels(sheet: &[u8], out: &mut [u32]) -> Result<usize, Refusal> {
    lend(&graph::levels(&Sheet::read(sheet)?), out)
}

/// Writes the bundle of a sheet's plan and gives its length (1 to 8, 10 to 12).
pub fn plan(sheet: &[u8], out: &mut [u8]) -> Result<usize, Refusal> {
    let sheet = Sheet::read(sheet)?;
    lend(&planner::plan(&sheet)?.to_bundle(&sheet), out)
}

/// Writes the listing of a sheet's plan, or of its refusal, and gives its length (12).
pub fn listing(sheet: &[u8], out: &mut [u8]) -> Result<usize, Refusal> {
    lend(&listing::lines(&Sheet::read(sheet).and_then(|sheet| planner::plan(&sheet))), out)
}

/// Writes the best bundle of a small sheet and gives its length (1 to 8, 10, 38, 11, 12).
pub fn least(sheet: &[u8], out: &mut [u8]) -> Result<usize, Refusal> {
    lend(&least::least(&Sheet::read(sheet)?)?, out)
}

/// Reads a bundle into a table of values; gives their count and the claim (1 to 8, 10, 21 to 25, 12).
pub fn read_bundle(
    sheet: &[u8],
    bundle: &[u8],
    commands: &mut [u16],
) -> Result<(usize, u32), Refusal> {
    let sheet = Sheet::read(sheet)?;
    let bundle = Bundle::read(&sheet, bundle)?;
    Ok((lend(&bundle.values(), commands)?, bundle.claim))
}

/// Writes the bundle of these values and gives its length (1 to 8, 10, 21 to 25, 12).
pub fn write_bundle(
    sheet: &[u8],
    commands: &[u16],
    claim: u32,
    out: &mut [u8],
) -> Result<usize, Refusal> {
    lend(&bundle::from_values(&Sheet::read(sheet)?, commands, claim)?, out)
}

/// Checks a bundle against its sheet (1 to 8, 10, 21 to 33, 37).
pub fn check(sheet: &[u8], bundle: &[u8]) -> Result<(), Refusal> {
    checker::check(&Sheet::read(sheet)?, bundle)
}

/// Writes an accepted bundle with its releases and gives its length (1 to 8, 10, 21 to 33, 37, 12).
pub fn release(sheet: &[u8], bundle: &[u8], out: &mut [u8]) -> Result<usize, Refusal> {
    lend(&pass(&Sheet::read(sheet)?, bundle)?, out)
}

/// Writes how far each task's time may drift and gives the length (1 to 8, 10, 21 to 33, 37, 12).
pub fn drift(sheet: &[u8], bundle: &[u8], out: &mut [u8]) -> Result<usize, Refusal> {
    lend(&report(&Sheet::read(sheet)?, bundle)?, out)
}

/// The better of two bundles for a sheet, one of the two slices themselves (1 to 8, 10, 34).
pub fn better<'a>(sheet: &[u8], first: &'a [u8], second: &'a [u8]) -> Result<&'a [u8], Refusal> {
    better::better(&Sheet::read(sheet)?, first, second)
}

/// The weight of a formula (35, 36).
pub fn weight(text: &[u8], letters: &[u32]) -> Result<u16, Refusal> {
    formula::weight(text, letters)
}
