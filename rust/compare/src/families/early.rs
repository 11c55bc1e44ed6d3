//! The family of jobs that end early.

use super::right_bundle;
use crate::comparison::{Comparison, Outcome};
use crate::rules::Literal;
use inputs::{bundles, sheets};

/// Small bundles, planned and of random runs, with ties, unpacking and releases, and some that are refused.
pub fn ends(c: &mut Comparison<Literal>) -> Outcome {
    for round in 0..1500 {
        let random = &mut c.random;
        let mut values = match round % 4 {
            0 => sheets::even(random),
            1 => sheets::small(random),
            _ => sheets::small_board(random),
        };
        values.limit = if round % 8 == 7 { values.limit } else { u32::MAX };
        if round % 3 == 0 {
            sheets::unpack(random, &mut values);
        }
        let mut bundle = right_bundle(random, &values);
        if round % 5 < 3 {
            bundles::release(random, &values, &mut bundle);
            let needs = bundles::needs(&values, &bundle);
            values.limit = needs.into_iter().max().unwrap_or(0);
        }
        c.early_ends(&values.encode(), &bundle.encode())?;
    }
    Ok(())
}
