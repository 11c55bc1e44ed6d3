//! The families of bare boards: sheets without tasks, with every function.

use super::small::{bundle_functions, sheet_functions};
use crate::comparison::{Comparison, Outcome};
use crate::rules::Rules;
use inputs::{bundles, damage, sheets};
use reference::trials;

/// Bare boards with their bundles, right, with another claim, cut, with a tail, or with commands where
/// none may stand; and the same bundles for a sheet that has tasks.
pub fn boards<R: Rules>(c: &mut Comparison<R>) -> Outcome {
    for _ in 0..3000 {
        let values = sheets::bare(&mut c.random);
        sheet_functions(c, &values.encode(), &values)?;
        let made = bundles::bare(&mut c.random, &values);
        let bytes = bundles::frayed(&mut c.random, &made);
        bundle_functions(c, &values.encode(), &bytes, &made)?;
        let right = bundles::orderly(&mut c.random, &values);
        bundle_functions(c, &values.encode(), &right.encode(), &right)?;
        let tasks = sheets::small(&mut c.random);
        bundle_functions(c, &tasks.encode(), &bytes, &made)?;
        let damaged = damage::few(&mut c.random, values.encode(), damage::sheet_command);
        bundle_functions(c, &damaged, &right.encode(), &right)?;
    }
    Ok(())
}

/// On every number of processors: the five bytes and every number of empty programmes, each of their
/// prefixes, and each with every byte behind them; and every byte before the five.
pub fn byte_by_byte<R: Rules>(c: &mut Comparison<R>) -> Outcome {
    for processors in 0..=17 {
        let mut values = sheets::bare(&mut c.random);
        values.processors = processors;
        sheet_functions(c, &values.encode(), &values)?;
        let sheet = values.encode();
        for length in 0..sheet.len() {
            c.read_sheet(&sheet[..length])?;
            c.plan(&sheet[..length])?;
        }
        for programmes in 0..=17 {
            let commands = (0..programmes).flat_map(|number| [0x50, number]).collect();
            let made = bundles::Bundle { commands, claim: 0 };
            let bytes = made.encode();
            bundle_functions(c, &sheet, &bytes, &made)?;
            for length in 0..bytes.len() {
                c.read_bundle(&sheet, &bytes[..length])?;
                c.check(&sheet, &bytes[..length])?;
            }
        }
        for byte in 0..=255 {
            let behind = [&trials::BARE_BUNDLE[..], &[byte]].concat();
            let before = [&[byte], &trials::BARE_BUNDLE[..]].concat();
            for bundle in [&behind[..], &before, &[byte]] {
                c.read_bundle(&sheet, bundle)?;
                c.check(&sheet, bundle)?;
            }
        }
    }
    Ok(())
}
