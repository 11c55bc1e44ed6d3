//! The families of how far each job's time may drift.

use super::{claim_wrongly, faulty_sheet, of_any_size, right_bundle, trial_files};
use crate::comparison::{Comparison, Outcome};
use crate::rules::{Literal, Rules};
use inputs::{bundles, damage, sheets, Random};

/// A small sheet with store enough and a bundle for it, planned or of a random run: with ties, unpacking,
/// cubes, works of the greatest size and releases.
fn small(random: &mut Random) -> (sheets::Sheet, bundles::Bundle) {
    let mut values = match random.below(4) {
        0 => sheets::even(random),
        1 => sheets::small(random),
        2 => sheets::telling(random, 8),
        _ => sheets::small_board(random),
    };
    values.limit = u32::MAX;
    if random.once_in(3) {
        sheets::unpack(random, &mut values);
    }
    if random.once_in(6) {
        let works = values.tasks.iter_mut().step_by(2);
        works.for_each(|work| *work = random.pick(&[*work, 65_534, 65_535]));
    }
    let mut bundle = right_bundle(random, &values);
    if random.once_in(3) {
        bundles::release(random, &values, &mut bundle);
    }
    (values, bundle)
}

/// Small bundles that are accepted, with works raised by any time.
pub fn raised(c: &mut Comparison<Literal>) -> Outcome {
    for _ in 0..2000 {
        let (values, bundle) = small(&mut c.random);
        c.drift_and_raise(&values.encode(), &bundle.encode())?;
    }
    Ok(())
}

/// Small bundles, of which many are refused: damaged, tangled, with other claims or for faulty sheets.
pub fn refused<R: Rules>(c: &mut Comparison<R>) -> Outcome {
    for round in 0..2000 {
        let (mut values, mut bundle) = small(&mut c.random);
        let random = &mut c.random;
        match round % 8 {
            0 => claim_wrongly(random, &mut bundle),
            1 => bundles::unsettle(random, &values, &mut bundle),
            2 => bundles::exchange(random, &mut bundle),
            3 => damage::records(random, &mut bundle.commands, 2),
            4 => bundle = bundles::tangled(random, &values),
            5 => values.limit = random.below(100) as u32,
            _ => (),
        }
        let mut bytes = bundle.encode();
        if round % 8 == 6 {
            bytes = damage::few(random, bytes, damage::bundle_command);
        }
        let sheet = match round % 16 {
            7 => faulty_sheet(random, &values, round / 16),
            _ => values.encode(),
        };
        c.drift(&sheet, &bytes)?;
    }
    Ok(())
}

/// Small bundles, accepted and refused, many of them.
pub fn many(c: &mut Comparison) -> Outcome {
    for _ in 0..40_000 {
        let (values, bundle) = small(&mut c.random);
        c.drift(&values.encode(), &bundle.encode())?;
    }
    (0..6).try_for_each(|_| refused(c))
}

/// Every trial sheet with every trial bundle, and each prefix of one.
pub fn trials<R: Rules>(c: &mut Comparison<R>) -> Outcome {
    for sheet in trial_files(".sheet").iter().filter(|sheet| sheet.len() < 200) {
        for bundle in trial_files(".bundle") {
            c.drift(sheet, &bundle)?;
        }
    }
    let (sheet, bundle) = (&trial_files("k1.sheet")[0], &trial_files("k1.bundle")[0]);
    (0..bundle.len()).try_for_each(|length| c.drift(sheet, &bundle[..length]))
}

/// Sheets of all sizes, and some of 256 tasks and 1,024 links.
pub fn large(c: &mut Comparison) -> Outcome {
    for round in 0..400 {
        let (values, mut bundle) = of_any_size(c, round, 40);
        if round % 4 < 2 {
            bundles::release(&mut c.random, &values, &mut bundle);
        }
        c.drift(&values.encode(), &bundle.encode())?;
    }
    Ok(())
}
