//! The families of releases: at right positions, moved, doubled, dropped, with another number, of the other
//! kind, and damaged; and the pass that puts them in.

use super::small::bundle_functions;
use super::{claim_wrongly, damage_bundle, faulty_sheet, limit_as_needed, of_any_size};
use super::{right_bundle, trial_files};
use crate::comparison::{Comparison, Outcome};
use crate::rules::Rules;
use inputs::{bundles, damage, sheets, Random};

/// A small sheet and a bundle for it with releases: the sheet mostly with store enough, or just as much
/// as the bundle needs, and some with unpacking.
fn small(random: &mut Random) -> (sheets::Sheet, bundles::Bundle) {
    let mut values = match random.once_in(2) {
        true => sheets::small(random),
        false => sheets::small_board(random),
    };
    if random.once_in(4) {
        sheets::unpack(random, &mut values);
    }
    let mut bundle = match random.once_in(8) {
        true => bundles::tangled(random, &values),
        false => right_bundle(random, &values),
    };
    bundles::release(random, &values, &mut bundle);
    match random.below(4) {
        0 => limit_as_needed(random, &mut values, &mut bundle),
        1..=2 => values.limit = u32::MAX,
        _ => (),
    }
    (values, bundle)
}

/// Bundles whose releases are right or damaged one to three times; every function with some of them.
pub fn checked<R: Rules>(c: &mut Comparison<R>, rounds: usize) -> Outcome {
    for round in 0..rounds {
        let (values, mut bundle) = small(&mut c.random);
        let random = &mut c.random;
        for _ in 0..round % 4 {
            bundles::unsettle(random, &values, &mut bundle);
        }
        if round % 16 == 1 {
            claim_wrongly(random, &mut bundle);
        }
        let mut bytes = bundle.encode();
        if round % 8 == 2 {
            bytes = damage::few(random, bytes, damage::bundle_command);
            damage_bundle(random, &mut bundle);
        }
        match round % 32 {
            0..=2 => bundle_functions(c, &values.encode(), &bytes, &bundle)?,
            _ => c.check(&values.encode(), &bytes)?,
        }
    }
    Ok(())
}

/// As many as there have to be of all sizes.
pub fn many(c: &mut Comparison) -> Outcome {
    checked(c, 1_100_000)
}

/// As many for each run of the small ones.
pub fn small_ones<R: Rules>(c: &mut Comparison<R>) -> Outcome {
    checked(c, 60_000)
}

/// A release of each result and each message at each place of small bundles, and each of them twice.
pub fn everywhere<R: Rules>(c: &mut Comparison<R>) -> Outcome {
    for round in 0..30 {
        let mut values = sheets::small(&mut c.random);
        values.limit = u32::MAX;
        let bundle = right_bundle(&mut c.random, &values);
        let (sheet, commands) = (values.encode(), &bundle.commands);
        let results = (0..values.task_count()).map(|task| [0x46, task as u16]);
        let messages = (0..values.link_count()).map(|link| [0x47, link as u16]);
        for release in results.chain(messages) {
            for at in (0..=commands.len()).step_by(2) {
                let (before, behind) = commands.split_at(at);
                let once = [before, &release, behind].concat();
                c.check(&sheet, &bundles::Bundle { commands: once, ..bundle }.encode())?;
                let twice = [before, &release, behind, &release].concat();
                c.check(&sheet, &bundles::Bundle { commands: twice, ..bundle }.encode())?;
            }
        }
        if round % 8 == 0 {
            c.pass(&sheet, &bundle.encode())?;
        }
    }
    Ok(())
}

/// The pass on small bundles: planned, of a random run, with releases already, and refused.
pub fn passes<R: Rules>(c: &mut Comparison<R>) -> Outcome {
    for round in 0..6000 {
        let (mut values, mut bundle) = small(&mut c.random);
        let random = &mut c.random;
        match round % 8 {
            0 => bundles::unsettle(random, &values, &mut bundle),
            1 => claim_wrongly(random, &mut bundle),
            2..=3 => (),
            _ => {
                bundle = right_bundle(random, &values);
                limit_as_needed(random, &mut values, &mut bundle);
            }
        }
        let sheet = match round % 64 {
            5 => faulty_sheet(random, &values, round / 64),
            _ => values.encode(),
        };
        c.pass(&sheet, &bundle.encode())?;
    }
    Ok(())
}

/// The pass on the trial pairs, and every prefix of what it gives.
pub fn trials<R: Rules>(c: &mut Comparison<R>) -> Outcome {
    for sheet in trial_files("k1.sheet").iter().chain(&trial_files("bare.sheet")) {
        for bundle in trial_files(".bundle") {
            c.pass(sheet, &bundle)?;
            for length in 0..=bundle.len() {
                c.release(sheet, &bundle[..length])?;
                c.check(sheet, &bundle[..length])?;
            }
        }
    }
    Ok(())
}

/// Sheets of all sizes, and now and then of 256 tasks and 1,024 links: the pass on plans and random runs,
/// and the machine on what it gives.
pub fn large(c: &mut Comparison) -> Outcome {
    for round in 0..1500 {
        let (mut values, mut bundle) = of_any_size(c, round, 16);
        let sheet = values.encode();
        c.pass(&sheet, &bundle.encode())?;
        bundles::release(&mut c.random, &values, &mut bundle);
        limit_as_needed(&mut c.random, &mut values, &mut bundle);
        let sheet = values.encode();
        c.pass(&sheet, &bundle.encode())?;
        c.machine(&sheet, &bundle.encode())?;
        bundles::unsettle(&mut c.random, &values, &mut bundle);
        c.check(&sheet, &bundle.encode())?;
    }
    Ok(())
}
