//! The families of the checker and the machine: pairs of a sheet and a bundle, and states.

use super::{
    claim_wrongly, faulty_sheet, limit_as_needed, mostly_small, planned, right_bundle, trial_files,
};
use crate::comparison::{Comparison, Outcome};
use inputs::{bundles, damage, sheets, Random};
use zeldrupa::raw as product;

/// Checks a pair, and mostly runs it on the machine too.
fn pair(c: &mut Comparison, sheet: &[u8], bundle: &[u8]) -> Outcome {
    c.check(sheet, bundle)?;
    match c.random.once_in(3) {
        true => Ok(()),
        false => c.machine(sheet, bundle),
    }
}

/// A sheet, mostly small, and mostly with store enough, since 28 hides what comes behind it.
fn roomy(c: &mut Comparison, round: usize) -> sheets::Sheet {
    let mut values = mostly_small(c, round);
    if !c.random.once_in(8) {
        values.limit = u32::MAX;
    }
    values
}

/// Every trial sheet with every trial bundle.
pub fn trial_pairs(c: &mut Comparison) -> Outcome {
    for sheet in trial_files(".sheet") {
        for bundle in trial_files(".bundle") {
            (0..8).try_for_each(|_| pair(c, &sheet, &bundle))?;
        }
    }
    Ok(())
}

/// Compares on so many pairs of a sheet and a right bundle for it, both as an edit leaves them.
fn edited(
    c: &mut Comparison,
    rounds: usize,
    edit: impl Fn(&mut Random, &mut sheets::Sheet, &mut bundles::Bundle),
) -> Outcome {
    for round in 0..rounds {
        let mut values = roomy(c, round);
        let mut bundle = right_bundle(&mut c.random, &values);
        edit(&mut c.random, &mut values, &mut bundle);
        pair(c, &values.encode(), &bundle.encode())?;
    }
    Ok(())
}

/// Bundles that are right, but perhaps for their store.
pub fn right(c: &mut Comparison) -> Outcome {
    edited(c, 25_000, |_, _, _| ())
}

/// Right bundles with another claim, mostly off by one.
pub fn wrong_claims(c: &mut Comparison) -> Outcome {
    edited(c, 15_000, |random, _, bundle| claim_wrongly(random, bundle))
}

/// Right bundles with commands swapped, moved, dropped or doubled.
pub fn moved_commands(c: &mut Comparison) -> Outcome {
    edited(c, 55_000, |random, _, bundle| {
        for _ in 0..random.within(1..=2) {
            damage::records(random, &mut bundle.commands, 2);
        }
    })
}

/// Right bundles with sends and receives exchanged between programmes.
pub fn exchanged_messages(c: &mut Comparison) -> Outcome {
    edited(c, 20_000, |random, _, bundle| bundles::exchange(random, bundle))
}

/// Bundles with receives moved up and sends moved down in their programmes, of which many get stuck.
pub fn tangled(c: &mut Comparison) -> Outcome {
    edited(c, 35_000, |random, values, bundle| {
        values.processors = random.within(2..=6) as u8;
        *bundle = bundles::tangled(random, values);
    })
}

/// Sheets whose limit is just what one of the programmes needs, or one less or more.
pub fn stores_at_the_limit(c: &mut Comparison) -> Outcome {
    edited(c, 20_000, limit_as_needed)
}

/// Right bundles with one to three damages in their bytes.
pub fn damaged(c: &mut Comparison) -> Outcome {
    for round in 0..30_000 {
        let values = roomy(c, round);
        let bundle = right_bundle(&mut c.random, &values).encode();
        let bundle = damage::few(&mut c.random, bundle, damage::bundle_command);
        pair(c, &values.encode(), &bundle)?;
    }
    Ok(())
}

/// Damaged sheets, circles and sheets past their limits, with bundles for what they were.
pub fn sheets_in_fault(c: &mut Comparison) -> Outcome {
    for round in 0..15_000 {
        let values = mostly_small(c, round);
        let sheet = faulty_sheet(&mut c.random, &values, round);
        let bundle = right_bundle(&mut c.random, &values).encode();
        pair(c, &sheet, &bundle)?;
    }
    Ok(())
}

/// Bundles that were made for another sheet.
pub fn other_sheets(c: &mut Comparison) -> Outcome {
    for round in 0..5000 {
        let (values, other) = (roomy(c, round), roomy(c, round));
        let bundle = right_bundle(&mut c.random, &other);
        pair(c, &values.encode(), &bundle.encode())?;
    }
    Ok(())
}

/// Every prefix of several bundles.
pub fn cut(c: &mut Comparison) -> Outcome {
    for round in 0..200 {
        let values = mostly_small(c, round % 100);
        let (sheet, bundle) = (values.encode(), right_bundle(&mut c.random, &values).encode());
        for length in 0..=bundle.len() {
            pair(c, &sheet, &bundle[..length])?;
        }
    }
    Ok(())
}

/// Sheets of 256 tasks and 1,024 links, with bundles right, stuck, and far longer than any plan.
pub fn largest(c: &mut Comparison) -> Outcome {
    for commands in [70_000, 1_000_000] {
        let values = sheets::largest(&mut c.random);
        let bundle = bundles::loose(&mut c.random, &values, commands).encode();
        c.check(&values.encode(), &bundle)?;
        c.machine(&values.encode(), &bundle)?;
    }
    for round in 0..300 {
        let mut values = sheets::largest(&mut c.random);
        values.limit = u32::MAX;
        let bundle = match round % 3 {
            0 => planned(&mut c.random, &values),
            1 => bundles::orderly(&mut c.random, &values),
            _ => bundles::tangled(&mut c.random, &values),
        };
        pair(c, &values.encode(), &bundle.encode())?;
    }
    Ok(())
}

/// Any words as a state: rubbish, small numbers, damaged states, and states of other bytes.
pub fn any_states(c: &mut Comparison) -> Outcome {
    for round in 0..400 {
        let values = mostly_small(c, round);
        let (mut sheet, mut bundle) =
            (values.encode(), right_bundle(&mut c.random, &values).encode());
        let mut words = vec![0; c.work_length + round % 3];
        product::start(&sheet, &bundle, &mut vec![0; c.work_length], &mut words);
        let random = &mut c.random;
        match round % 4 {
            0 => words.fill_with(|| random.bits() as u32),
            1 => {
                let bits = random.within(1..=31);
                words.fill_with(|| random.bits() as u32 >> bits);
            }
            2 => {
                for _ in 0..random.within(1..=12) {
                    let at = random.pick(&[32, 128, 1200]);
                    words[random.below(at)] = random.bits() as u32 >> random.below(32);
                }
            }
            _ => {
                let other = sheets::small(random);
                sheet = other.encode();
                bundle = damage::few(random, bundle, damage::bundle_command);
            }
        }
        c.any_words(&sheet, &bundle, &words, 30)?;
    }
    Ok(())
}
