//! What is compared on boards with something more than processors and a limit: valid sheets by what decides
//! in their plans, their bundles, and the command in wrong places.

use super::small::{bundle_functions, sheet_functions};
use super::{claim_wrongly, faulty_sheet, limit_as_needed, mostly_small, planned, right_bundle};
use crate::comparison::{Comparison, Outcome};
use crate::rules::{Literal, Rules};
use inputs::{bundles, damage, sheets, Random};

/// What makes a small sheet of such a board.
pub type Make = fn(&mut Random) -> sheets::Sheet;
/// What makes the board of a sheet such a one.
pub type Dress = fn(&mut Random, &mut sheets::Sheet);

/// So many small sheets, which are planned; some are also read and written.
pub fn small_boards(c: &mut Comparison<Literal>, rounds: usize, make: Make) -> Outcome {
    for round in 0..rounds {
        let values = make(&mut c.random);
        match round % 8 {
            0 => sheet_functions(c, &values.encode(), &values)?,
            _ => c.plan(&values.encode())?,
        }
    }
    Ok(())
}

/// Bundles for small sheets: right, as hands arrange them, with wrong claims, and damaged.
pub fn small_bundles<R: Rules>(c: &mut Comparison<R>, make: Make) -> Outcome {
    for round in 0..6000 {
        let mut values = make(&mut c.random);
        let random = &mut c.random;
        if round % 4 > 0 {
            values.limit = u32::MAX;
        }
        let mut bundle = right_bundle(random, &values);
        match round % 8 {
            0 => limit_as_needed(random, &mut values, &mut bundle),
            1 => claim_wrongly(random, &mut bundle),
            2 => bundles::exchange(random, &mut bundle),
            3 => damage::records(random, &mut bundle.commands, 2),
            4..=5 => bundle = bundles::tangled(random, &values),
            _ => (),
        }
        let rival = bundles::rival(random, &values, &bundle);
        let sheet = values.encode();
        bundle_functions(c, &sheet, &bundle.encode(), &bundle)?;
        c.better(&sheet, &bundle.encode(), &rival)?;
    }
    Ok(())
}

/// Small sheets as an edit of the command leaves them, and with other damages.
pub fn damaged<R: Rules>(
    c: &mut Comparison<R>,
    make: Make,
    edit: fn(&mut Random, &[u8]) -> Vec<u8>,
) -> Outcome {
    for round in 0..4000 {
        let values = match round % 4 {
            0 => sheets::small(&mut c.random),
            _ => make(&mut c.random),
        };
        let random = &mut c.random;
        let sheet = match round % 3 {
            0 => faulty_sheet(random, &values, 0),
            _ => edit(random, &values.encode()),
        };
        sheet_functions(c, &sheet, &values)?;
        if round % 8 == 0 {
            let bundle = right_bundle(&mut c.random, &values);
            bundle_functions(c, &sheet, &bundle.encode(), &bundle)?;
        }
    }
    Ok(())
}

/// These bytes at every offset of small sheets that have such a command or none, and at the end of every
/// prefix.
pub fn every_offset<R: Rules>(c: &mut Comparison<R>, make: Make, commands: &[&[u8]]) -> Outcome {
    for round in 0..30 {
        let values = match round % 2 {
            0 => sheets::Sheet { unpacking: 0, cube: 0, ..make(&mut c.random) },
            _ => make(&mut c.random),
        };
        let sheet = values.encode();
        for at in 0..=sheet.len() {
            let (before, behind) = sheet.split_at(at);
            for command in commands {
                c.plan(&[before, command, behind].concat())?;
                c.plan(&[before, command].concat())?;
            }
            c.read_sheet(before)?;
            c.plan(before)?;
        }
    }
    Ok(())
}

/// Sheets of all sizes, which are planned: any, with ties, under the guard and with little store.
pub fn plans(c: &mut Comparison, dress: Dress) -> Outcome {
    for round in 0..60_000 {
        let mut values = match round % 8 {
            0 => mostly_small(c, round / 8),
            1 => sheets::telling(&mut c.random, if round % 64 == 1 { 256 } else { 32 }),
            2..=3 => sheets::sharing(&mut c.random, 32),
            _ => sheets::guarded(&mut c.random),
        };
        if round % 16 >= 14 {
            sheets::tighten(&mut c.random, &mut values);
        }
        dress(&mut c.random, &mut values);
        c.plan(&values.encode())?;
    }
    Ok(())
}

/// Sheets of 256 tasks and 1,024 links with their plans, random runs and tangled programmes.
pub fn largest(c: &mut Comparison, dress: Dress) -> Outcome {
    for round in 0..60 {
        let mut values = sheets::largest(&mut c.random);
        values.limit = u32::MAX;
        dress(&mut c.random, &mut values);
        let sheet = values.encode();
        let bundle = match round % 3 {
            0 => planned(&mut c.random, &values),
            1 => bundles::orderly(&mut c.random, &values),
            _ => bundles::tangled(&mut c.random, &values),
        };
        c.plan(&sheet)?;
        c.check(&sheet, &bundle.encode())?;
        c.machine(&sheet, &bundle.encode())?;
    }
    Ok(())
}
