//! The families for the literal rules: small sheets and bundles, with every function.

use super::{
    claim_wrongly, damage_bundle, damage_sheet, faulty_sheet, limit_as_needed, over_full, planned,
    right_bundle,
};
use crate::comparison::{Comparison, Outcome};
use crate::rules::{Literal, Rules};
use inputs::{bundles, damage, sheets, Random};

/// A comparison with the literal rules.
type Small = Comparison<Literal>;

/// Every function of a sheet: with its bytes, and with values, which need not be the same sheet's.
pub fn sheet_functions<R: Rules>(
    c: &mut Comparison<R>,
    sheet: &[u8],
    values: &sheets::Sheet,
) -> Outcome {
    c.read_sheet(sheet)?;
    c.levels(sheet)?;
    c.plan(sheet)?;
    c.write_sheet(values)
}

/// Every function of a bundle for a sheet: with its bytes, and with values.
pub fn bundle_functions<R: Rules>(
    c: &mut Comparison<R>,
    sheet: &[u8],
    bundle: &[u8],
    values: &bundles::Bundle,
) -> Outcome {
    c.read_bundle(sheet, bundle)?;
    c.write_bundle(sheet, values)?;
    c.check(sheet, bundle)?;
    c.release(sheet, bundle)?;
    c.drift(sheet, bundle)?;
    c.better(sheet, bundle, &values.encode())?;
    c.machine(sheet, bundle)
}

/// Valid sheets.
pub fn boards(c: &mut Small) -> Outcome {
    for _ in 0..35_000 {
        let values = sheets::small_board(&mut c.random);
        sheet_functions(c, &values.encode(), &values)?;
    }
    Ok(())
}

/// Valid sheets on which a task often starts on an open processor just when its messages are there, with
/// their plans' bundles; and the same sheets damaged.
pub fn shared_processors(c: &mut Small) -> Outcome {
    for round in 0..10_000 {
        let values = sheets::sharing(&mut c.random, 8);
        let sheet = values.encode();
        sheet_functions(c, &sheet, &values)?;
        if round % 4 == 0 {
            let bundle = planned(&mut c.random, &values);
            bundle_functions(c, &sheet, &bundle.encode(), &bundle)?;
            let damaged = damage::few(&mut c.random, sheet, damage::sheet_command);
            c.plan(&damaged)?;
        }
    }
    Ok(())
}

/// Sheets and values with one to three damages each.
pub fn damaged_sheets(c: &mut Small) -> Outcome {
    for _ in 0..15_000 {
        let mut values = sheets::small_board(&mut c.random);
        let sheet = damage::few(&mut c.random, values.encode(), damage::sheet_command);
        damage_sheet(&mut c.random, &mut values);
        sheet_functions(c, &sheet, &values)?;
    }
    Ok(())
}

/// Sheets with one task or one link more than there may be.
pub fn over_full_sheets(c: &mut Small) -> Outcome {
    let full = sheets::largest(&mut c.random);
    for values in over_full(&mut c.random, &full) {
        sheet_functions(c, &values.encode(), &values)?;
    }
    Ok(())
}

/// Circles, with tasks before, behind and between them.
pub fn circles(c: &mut Small) -> Outcome {
    for round in 0..2000 {
        let values = sheets::circle(&mut c.random, 1 + round % 6);
        sheet_functions(c, &values.encode(), &values)?;
    }
    Ok(())
}

/// Compares on so many pairs of a sheet and a right bundle for it, both as an edit leaves them.
fn edited(
    c: &mut Small,
    rounds: usize,
    edit: impl Fn(&mut Random, &mut sheets::Sheet, &mut bundles::Bundle),
) -> Outcome {
    for _ in 0..rounds {
        let mut values = sheets::small_board(&mut c.random);
        let mut bundle = right_bundle(&mut c.random, &values);
        edit(&mut c.random, &mut values, &mut bundle);
        bundle_functions(c, &values.encode(), &bundle.encode(), &bundle)?;
    }
    Ok(())
}

/// Bundles that are right, but perhaps for their store.
pub fn right_bundles(c: &mut Small) -> Outcome {
    edited(c, 15_000, |_, _, _| ())
}

/// Bundles as hands arrange them: commands moved, messages early, late or exchanged, another claim,
/// and sheets that just hold them or just do not.
pub fn arranged_bundles(c: &mut Small) -> Outcome {
    edited(c, 20_000, |random, values, bundle| match random.below(6) {
        0 => claim_wrongly(random, bundle),
        1 => limit_as_needed(random, values, bundle),
        2 => bundles::exchange(random, bundle),
        3 => damage::records(random, &mut bundle.commands, 2),
        _ => {
            values.limit = u32::MAX;
            values.processors = random.within(2..=4) as u8;
            *bundle = bundles::tangled(random, values);
        }
    })
}

/// Bundles and values of bundles with one to three damages each.
pub fn damaged_bundles(c: &mut Small) -> Outcome {
    for _ in 0..12_000 {
        let values = sheets::small_board(&mut c.random);
        let mut bundle = right_bundle(&mut c.random, &values);
        let bytes = damage::few(&mut c.random, bundle.encode(), damage::bundle_command);
        damage_bundle(&mut c.random, &mut bundle);
        bundle_functions(c, &values.encode(), &bytes, &bundle)?;
    }
    Ok(())
}

/// Sheets in fault, with bundles for what they were.
pub fn sheets_in_fault(c: &mut Small) -> Outcome {
    for round in 0..5000 {
        let values = sheets::small_board(&mut c.random);
        // The 257 tasks of one kind take long, so that kind comes seldom.
        let kind = if round % 8 == 2 && round % 200 != 2 { 0 } else { round };
        let sheet = faulty_sheet(&mut c.random, &values, kind);
        let bundle = right_bundle(&mut c.random, &values);
        bundle_functions(c, &sheet, &bundle.encode(), &bundle)?;
    }
    Ok(())
}
