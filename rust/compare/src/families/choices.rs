//! The families of the choice between two bundles.

use super::{faulty_sheet, mostly_small, planned, right_bundle};
use crate::comparison::{Comparison, Outcome};
use crate::rules::Rules;
use inputs::{bundles, damage, sheets};

/// A right bundle for a sheet against a rival, in either order, and now and then against itself.
fn rivals_for<R: Rules>(c: &mut Comparison<R>, sheet: &[u8], values: &sheets::Sheet) -> Outcome {
    let bundle = right_bundle(&mut c.random, values);
    let (one, other) = (bundle.encode(), bundles::rival(&mut c.random, values, &bundle));
    c.better(sheet, &one, &other)?;
    c.better(sheet, &other, &one)?;
    match c.random.once_in(16) {
        true => c.better(sheet, &one, &one),
        false => Ok(()),
    }
}

/// Planned and made-up bundles of all sizes, mostly with store enough.
pub fn rivals(c: &mut Comparison) -> Outcome {
    for round in 0..12_000 {
        let mut values = mostly_small(c, round);
        if !c.random.once_in(8) {
            values.limit = u32::MAX;
        }
        rivals_for(c, &values.encode(), &values)?;
    }
    Ok(())
}

/// Sheets on which many bundles claim the same, so that processors and bytes decide.
pub fn even<R: Rules>(c: &mut Comparison<R>) -> Outcome {
    for _ in 0..6000 {
        let values = sheets::even(&mut c.random);
        rivals_for(c, &values.encode(), &values)?;
    }
    Ok(())
}

/// Bare boards, on which the bytes alone decide between accepted bundles.
pub fn bare<R: Rules>(c: &mut Comparison<R>) -> Outcome {
    for _ in 0..3000 {
        let values = sheets::bare(&mut c.random);
        let sheet = values.encode();
        rivals_for(c, &sheet, &values)?;
        let [one, other] = [(); 2].map(|()| {
            let made = bundles::bare(&mut c.random, &values);
            bundles::frayed(&mut c.random, &made)
        });
        c.better(&sheet, &one, &other)?;
    }
    Ok(())
}

/// Pairs of bundles of which mostly both are damaged, stuck or claim another time.
pub fn refused(c: &mut Comparison) -> Outcome {
    for round in 0..8000 {
        let values = mostly_small(c, round);
        let [one, other] = [(); 2].map(|()| {
            let mut bundle = bundles::tangled(&mut c.random, &values);
            bundle.claim ^= c.random.below(3) as u32;
            damage::few(&mut c.random, bundle.encode(), damage::bundle_command)
        });
        c.better(&values.encode(), &one, &other)?;
    }
    Ok(())
}

/// Damaged sheets, circles and sheets past their limits, with bundles for what they were.
pub fn faulty_sheets(c: &mut Comparison) -> Outcome {
    for round in 0..6000 {
        let values = mostly_small(c, round);
        let sheet = faulty_sheet(&mut c.random, &values, round);
        rivals_for(c, &sheet, &values)?;
    }
    Ok(())
}

/// Every prefix of a bundle against the whole, and against another prefix.
pub fn cut(c: &mut Comparison) -> Outcome {
    for round in 0..100 {
        let values = mostly_small(c, round % 50);
        let (sheet, bundle) = (values.encode(), right_bundle(&mut c.random, &values).encode());
        for length in 0..=bundle.len() {
            c.better(&sheet, &bundle, &bundle[..length])?;
            c.better(&sheet, &bundle[..length], &bundle)?;
            let other = c.random.below(bundle.len() + 1);
            c.better(&sheet, &bundle[..length], &bundle[..other])?;
        }
    }
    Ok(())
}

/// Sheets of 256 tasks and 1,024 links: plans and random runs, equal but for a late byte, stuck, and
/// far longer than any plan.
pub fn largest(c: &mut Comparison) -> Outcome {
    for round in 0..200 {
        let mut values = sheets::largest(&mut c.random);
        values.limit = u32::MAX;
        let sheet = values.encode();
        let bundle = planned(&mut c.random, &values);
        let other = match round % 5 {
            0 => bundles::loose(&mut c.random, &values, 20_000),
            1 => bundles::spread(&mut c.random, &values, &bundle),
            2 => bundles::tangled(&mut c.random, &values),
            _ => bundles::orderly(&mut c.random, &values),
        };
        c.better(&sheet, &bundle.encode(), &other.encode())?;
        c.better(&sheet, &other.encode(), &bundle.encode())?;
        c.better(&sheet, &bundle.encode(), &bundle.encode())?;
    }
    Ok(())
}
