//! The families of the formats: which sheets, bundles and values the readers and writers get.

use super::{
    damage_bundle, damage_sheet, mostly_small, over_full, planned, seldom_largest, trial_files,
};
use crate::comparison::{Comparison, Outcome};
use crate::rules::Rules;
use inputs::{bundles, damage, sheets};
use reference::trials;

/// Everything that reads a sheet, with this one.
fn every_reader<R: Rules>(
    c: &mut Comparison<R>,
    sheet: &[u8],
    bundle: &bundles::Bundle,
) -> Outcome {
    c.read_sheet(sheet)?;
    c.levels(sheet)?;
    c.read_bundle(sheet, &bundle.encode())?;
    c.write_bundle(sheet, bundle)
}

/// The trial sheets and bundles.
pub fn trial_sheets(c: &mut Comparison) -> Outcome {
    for sheet in trial_files(".sheet") {
        c.read_sheet(&sheet)?;
        c.levels(&sheet)?;
        for bundle in trial_files(".bundle") {
            c.read_bundle(&sheet, &bundle)?;
        }
    }
    Ok(())
}

/// A sheet for each refusal of sheets, with every function.
pub fn refused_sheets<R: Rules>(c: &mut Comparison<R>) -> Outcome {
    let task: &[u8] = &[0x54, 1, 0, 1, 0];
    let link: &[u8] = &[0x45, 0, 1, 1, 0, 1, 0];
    let full = task.repeat(257);
    let bodies: [&[&[u8]]; 13] = [
        &[],
        &[task],
        &[task, &task[..3]],
        &[task, &[0x00]],
        &[task, &[0x4D]],
        &[task, task, link, task],
        &[task, &[0x51, 0x51]],
        &[&full],
        &[&[0x54, 0, 0, 0, 0]],
        &[link],
        &[task, link],
        &[task, task, link, link],
        &[task, &[0x45, 0, 0, 0, 0, 0, 0, 0x51]],
    ];
    for _ in 0..20 {
        let values = sheets::small(&mut c.random);
        let bundle = bundles::loose(&mut c.random, &values, 6);
        for body in bodies {
            let sheet = [&[0x4D, 2, 50, 0, 0, 0][..], &body.concat()].concat();
            every_reader(c, &sheet, &bundle)?;
        }
        for processors in [0, 1, 16, 17, 255] {
            let mut values = values.clone();
            values.processors = processors;
            every_reader(c, &values.encode(), &bundle)?;
            c.write_sheet(&values)?;
        }
    }
    Ok(())
}

/// Valid sheets of all sizes, from bytes and from values.
pub fn valid_sheets(c: &mut Comparison) -> Outcome {
    for round in 0..3000 {
        let values = seldom_largest(c, round);
        let mut sheet = values.encode();
        c.read_sheet(&sheet)?;
        c.levels(&sheet)?;
        c.write_sheet(&values)?;
        // One byte more.
        sheet.push(c.random.bits() as u8);
        c.read_sheet(&sheet)?;
    }
    Ok(())
}

/// Sheets with one to three damages.
pub fn damaged_sheets(c: &mut Comparison) -> Outcome {
    for round in 0..12_000 {
        let values = mostly_small(c, round);
        let sheet = damage::few(&mut c.random, values.encode(), damage::sheet_command);
        c.read_sheet(&sheet)?;
        c.levels(&sheet)?;
        if round % 4 == 0 {
            let bundle = bundles::loose(&mut c.random, &values, 8);
            every_reader(c, &sheet, &bundle)?;
        }
    }
    Ok(())
}

/// Values of sheets with one to three damages: odd lengths, 256 and more, doubled and loose links.
pub fn damaged_sheet_values(c: &mut Comparison) -> Outcome {
    for round in 0..16_000 {
        let mut values = mostly_small(c, round);
        damage_sheet(&mut c.random, &mut values);
        c.write_sheet(&values)?;
    }
    Ok(())
}

/// Circles of every size, and links that close one in a valid sheet; on a bare board they are loose.
pub fn circles(c: &mut Comparison) -> Outcome {
    for size in 1..=sheets::MOST_TASKS {
        for _ in 0..3 {
            let values = sheets::circle(&mut c.random, size);
            c.read_sheet(&values.encode())?;
            c.levels(&values.encode())?;
            c.write_sheet(&values)?;
        }
    }
    for _ in 0..1000 {
        let mut values = sheets::valid(&mut c.random);
        for _ in 0..c.random.within(1..=3) {
            let [source, target] =
                [0; 2].map(|_| c.random.below(values.task_count().max(1)) as u16);
            let at = 4 * c.random.below(values.link_count() + 1);
            values.links.splice(at..at, [source, target, 1, 1]);
        }
        c.read_sheet(&values.encode())?;
        c.write_sheet(&values)?;
    }
    Ok(())
}

/// Sheets at and over the most tasks and links, whole, cut, doubled and out of range there.
pub fn brimful_sheets(c: &mut Comparison) -> Outcome {
    for _ in 0..20 {
        let full = sheets::largest(&mut c.random);
        let [more_tasks, more_links] = over_full(&mut c.random, &full);
        let mut doubled = full.clone();
        let at = 4 * c.random.below(full.link_count() - 1);
        doubled.links.copy_within(at..at + 4, full.links.len() - 4);
        for values in [&full, &more_tasks, &more_links, &doubled] {
            let sheet = values.encode();
            let bundle = bundles::loose(&mut c.random, &full, 30);
            every_reader(c, &sheet, &bundle)?;
            for cut in 1..=9 {
                c.read_sheet(&sheet[..sheet.len() - cut])?;
            }
            for cut in 0..5 {
                let mut values = values.clone();
                values.tasks.truncate(values.tasks.len() - cut % 3);
                values.links.truncate(values.links.len() - cut);
                c.write_sheet(&values)?;
            }
        }
    }
    Ok(())
}

/// Every prefix of several sheets, and of their lists of values.
pub fn cut_sheets(c: &mut Comparison) -> Outcome {
    let mut whole =
        vec![trials::k1_sheet(), trials::bare_sheet(), sheets::largest(&mut c.random).encode()];
    whole.extend((0..12).map(|_| sheets::small(&mut c.random).encode()));
    for sheet in whole {
        for length in 0..=sheet.len() {
            c.read_sheet(&sheet[..length])?;
        }
        for length in 0..=sheet.len().min(300) {
            c.levels(&sheet[..length])?;
        }
    }
    for _ in 0..12 {
        let values = sheets::small(&mut c.random);
        for length in 0..=values.tasks.len() {
            let tasks = values.tasks[..length].to_vec();
            c.write_sheet(&sheets::Sheet { tasks, ..values.clone() })?;
        }
        for length in 0..=values.links.len() {
            let links = values.links[..length].to_vec();
            c.write_sheet(&sheets::Sheet { links, ..values.clone() })?;
        }
    }
    Ok(())
}

/// A bundle of the right form for a sheet: of random programmes, of a random run, or of the planner.
fn formed(c: &mut Comparison, values: &sheets::Sheet) -> bundles::Bundle {
    let random = &mut c.random;
    match random.below(5) {
        0 => bundles::loose(random, values, 0),
        1 => {
            let commands = random.below(400);
            bundles::loose(random, values, commands)
        }
        2 => bundles::orderly(random, values),
        3 => bundles::tangled(random, values),
        _ => planned(random, values),
    }
}

/// Bundles of the right form, from bytes and from values.
pub fn bundles_of_the_form(c: &mut Comparison) -> Outcome {
    for round in 0..5000 {
        let values = seldom_largest(c, round);
        let (sheet, bundle) = (values.encode(), formed(c, &values));
        let mut bytes = bundle.encode();
        c.read_bundle(&sheet, &bytes)?;
        c.write_bundle(&sheet, &bundle)?;
        // One byte more.
        bytes.push(c.random.bits() as u8);
        c.read_bundle(&sheet, &bytes)?;
    }
    Ok(())
}

/// Bundles with one to three damages.
pub fn damaged_bundles(c: &mut Comparison) -> Outcome {
    for round in 0..16_000 {
        let values = mostly_small(c, round);
        let bundle = formed(c, &values).encode();
        let bundle = damage::few(&mut c.random, bundle, damage::bundle_command);
        c.read_bundle(&values.encode(), &bundle)?;
    }
    Ok(())
}

/// Values of bundles with one to three damages: odd lengths, 256 and more, strange commands, claims
/// in between, programmes out of turn.
pub fn damaged_bundle_values(c: &mut Comparison) -> Outcome {
    for round in 0..16_000 {
        let values = mostly_small(c, round);
        let mut bundle = formed(c, &values);
        damage_bundle(&mut c.random, &mut bundle);
        c.write_bundle(&values.encode(), &bundle)?;
    }
    Ok(())
}

/// Every prefix of several bundles, and of their lists of values.
pub fn cut_bundles(c: &mut Comparison) -> Outcome {
    let largest = sheets::largest(&mut c.random);
    let mut whole = vec![(largest.encode(), bundles::orderly(&mut c.random, &largest))];
    for _ in 0..12 {
        let values = sheets::small(&mut c.random);
        whole.push((values.encode(), formed(c, &values)));
    }
    for (sheet, bundle) in whole {
        let bytes = bundle.encode();
        for length in 0..=bytes.len() {
            c.read_bundle(&sheet, &bytes[..length])?;
        }
        let step = 1 + bundle.commands.len() / 1000;
        for length in (0..=bundle.commands.len()).step_by(step) {
            let commands = bundle.commands[..length].to_vec();
            c.write_bundle(&sheet, &bundles::Bundle { commands, ..bundle })?;
        }
    }
    for length in 0..=trials::K1_BUNDLE.len() {
        c.read_bundle(&trials::k1_sheet(), &trials::K1_BUNDLE[..length])?;
    }
    Ok(())
}

/// Inputs far longer than any plan: bundles of a million commands, sheets and values past all limits.
pub fn long_inputs(c: &mut Comparison) -> Outcome {
    let values = sheets::largest(&mut c.random);
    let sheet = values.encode();
    for commands in [1_000_000, 70_000] {
        let mut bundle = bundles::loose(&mut c.random, &values, commands);
        for _ in 0..4 {
            c.read_bundle(&sheet, &bundle.encode())?;
            c.write_bundle(&sheet, &bundle)?;
        }
        let last = bundle.commands.len() - 1;
        bundle.commands[last] = 65_535;
        c.read_bundle(&sheet, &bundle.encode())?;
        c.write_bundle(&sheet, &bundle)?;
        bundle.commands.pop();
        c.write_bundle(&sheet, &bundle)?;
    }
    let tasks = vec![1; 200_001];
    let links: Vec<u16> = (0..200_000).map(|i| (i % 251) as u16).collect();
    c.write_sheet(&sheets::Sheet { tasks, ..values.clone() })?;
    c.write_sheet(&sheets::Sheet { links, ..values.clone() })?;
    let more = [&sheet[..], &[0x51; 1_000_000]].concat();
    c.read_sheet(&more)?;
    c.levels(&more)?;
    c.read_bundle(&more, &trials::K1_BUNDLE)
}
