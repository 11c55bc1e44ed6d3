//! The families of boards that are wired as a cube, with and without a time for receives.

use super::dressed;
use crate::comparison::{Comparison, Outcome};
use crate::rules::{Literal, Rules};
use inputs::{damage, sheets, Random};

/// A small sheet on a cube of 3, 5, 8, 13 or 16 processors.
fn small(random: &mut Random) -> sheets::Sheet {
    sheets::cube(random, 8)
}

/// Wires the board, with and without a time for receives.
fn wire(random: &mut Random, values: &mut sheets::Sheet) {
    sheets::wire(random, values);
    if random.once_in(2) {
        sheets::unpack(random, values);
    }
}

/// Small sheets, which are planned.
pub fn small_boards(c: &mut Comparison<Literal>) -> Outcome {
    dressed::small_boards(c, 52_000, small)
}

/// Bundles for small sheets, right and wrong.
pub fn small_bundles<R: Rules>(c: &mut Comparison<R>) -> Outcome {
    dressed::small_bundles(c, small)
}

/// Small sheets with the command in a wrong place or twice, and with other damages.
pub fn damaged<R: Rules>(c: &mut Comparison<R>) -> Outcome {
    dressed::damaged(c, small, damage::cube)
}

/// The command at every offset, alone, twice, and before and behind a time for receives.
pub fn every_offset<R: Rules>(c: &mut Comparison<R>) -> Outcome {
    let commands: &[&[u8]] = &[&[0x48], &[0x48, 0x48], &[0x48, 0x55, 1, 0], &[0x55, 1, 0, 0x48]];
    dressed::every_offset(c, small, commands)
}

/// Sheets of all sizes, which are planned.
pub fn plans(c: &mut Comparison) -> Outcome {
    dressed::plans(c, wire)
}

/// Sheets that open many processors and skip numbers.
pub fn far(c: &mut Comparison) -> Outcome {
    for _ in 0..30_000 {
        let values = sheets::cube(&mut c.random, 24);
        c.plan(&values.encode())?;
    }
    Ok(())
}

/// Sheets of the largest size with bundles.
pub fn largest(c: &mut Comparison) -> Outcome {
    dressed::largest(c, wire)
}
