//! The better of two bundles for one sheet.

use crate::checker::{merits, Merits};
use crate::refusal::*;
use crate::sheet::Sheet;

/// The better of two bundles, one of the two slices themselves (34): an accepted one before a
/// refused one, then by its merits, then by its bytes; the first of equals.
pub fn better<'a>(sheet: &Sheet, first: &'a [u8], second: &'a [u8]) -> Result<&'a [u8], Refusal> {
    let rank = |bundle: &'a [u8]| -> Option<(Merits, &'a [u8])> {
        Some((merits(sheet, bundle).ok()?, bundle))
    };
    match (rank(first), rank(second)) {
        (None, None) => Err(Refusal::new(BOTH_REFUSED, 0)),
        (None, Some(_)) => Ok(second),
        // Slices of bytes have the order that is asked for.
        (Some(one), Some(other)) if other < one => Ok(second),
        _ => Ok(first),
    }
}
