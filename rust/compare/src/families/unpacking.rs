//! The families of boards on which receives take time.

use super::dressed;
use crate::comparison::{Comparison, Outcome};
use crate::rules::{Literal, Rules};
use inputs::{damage, sheets, Random};

/// A small sheet of which all receives take time: with ties, under the guard, with store enough or hardly
/// enough.
fn small(random: &mut Random) -> sheets::Sheet {
    let mut values = sheets::small_board(random);
    sheets::unpack(random, &mut values);
    values
}

/// Small sheets, which are planned.
pub fn small_boards(c: &mut Comparison<Literal>) -> Outcome {
    dressed::small_boards(c, 36_000, small)
}

/// Bundles for small sheets, right and wrong.
pub fn small_bundles<R: Rules>(c: &mut Comparison<R>) -> Outcome {
    dressed::small_bundles(c, small)
}

/// Small sheets with the command in a wrong place, twice, of 0 or cut, and with other damages.
pub fn damaged<R: Rules>(c: &mut Comparison<R>) -> Outcome {
    dressed::damaged(c, small, damage::unpacking)
}

/// The command at every offset, whole, of 0 and cut.
pub fn every_offset<R: Rules>(c: &mut Comparison<R>) -> Outcome {
    dressed::every_offset(c, small, &[&[0x55, 1, 0], &[0x55, 0, 0], &[0x55, 7], &[0x55]])
}

/// Sheets of all sizes, which are planned.
pub fn plans(c: &mut Comparison) -> Outcome {
    dressed::plans(c, sheets::unpack)
}

/// Sheets of the largest size with bundles.
pub fn largest(c: &mut Comparison) -> Outcome {
    dressed::largest(c, sheets::unpack)
}
