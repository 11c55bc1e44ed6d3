//! The families of the least time: sheets of at most six tasks, of which many arrangements claim the same,
//! and sheets that are not small.

use super::{faulty_sheet, limit_as_needed, trial_files};
use crate::comparison::{Comparison, Outcome};
use crate::rules::{Literal, Rules};
use inputs::{bundles, sheets};

/// Sheets of one to six tasks.
pub fn up_to_six(c: &mut Comparison) -> Outcome {
    for round in 0..24_000 {
        let tasks = match round % 16 {
            0..=1 => 6,
            2..=5 => 5,
            6..=10 => 4,
            _ => c.random.within(1..=3),
        };
        compact(c, tasks)?;
    }
    Ok(())
}

/// The same for the literal rules, which take long on the larger ones.
pub fn up_to_five(c: &mut Comparison<Literal>) -> Outcome {
    for round in 0..34_000 {
        let tasks = match round % 5000 {
            0 => 5,
            1..=50 => 4,
            51..=1000 => 3,
            1001..=4000 => 2,
            _ => 1,
        };
        compact(c, tasks)?;
    }
    Ok(())
}

/// A sheet of so many tasks, every fourth with the limit that some of its programmes just need.
fn compact<R: Rules>(c: &mut Comparison<R>, tasks: usize) -> Outcome {
    let mut values = sheets::compact(&mut c.random, tasks);
    if c.random.once_in(4) {
        let mut bundle = bundles::orderly(&mut c.random, &values);
        limit_as_needed(&mut c.random, &mut values, &mut bundle);
    }
    c.least(&values.encode())
}

/// All sheets of three tasks of work 1 and 2 with links of cost 0 and 1 from lower to higher numbers, on
/// one to three processors, with and without a time for receives.
pub fn every_three<R: Rules>(c: &mut Comparison<R>) -> Outcome {
    for works in 0..8u16 {
        for costs in 0..27u16 {
            let ends = [[0, 1], [0, 2], [1, 2]].into_iter().zip([1, 3, 9]);
            let links = ends.filter_map(|([from, to], power)| match costs / power % 3 {
                0 => None,
                cost => Some([from, to, cost - 1, 0]),
            });
            let sheet = sheets::Sheet {
                tasks: (0..3).flat_map(|task| [1 + (works >> task & 1), 0]).collect(),
                links: links.flatten().collect(),
                ..sheets::Sheet::default()
            };
            for (processors, unpacking) in [(1, 0), (2, 0), (2, 1), (3, 0), (3, 1)] {
                let values = sheets::Sheet { processors, unpacking, ..sheet.clone() };
                c.least(&values.encode())?;
            }
        }
    }
    Ok(())
}

/// More than six tasks, cubes, bare boards, circles and damaged sheets.
pub fn not_small<R: Rules>(c: &mut Comparison<R>) -> Outcome {
    for round in 0..16_000 {
        let random = &mut c.random;
        let tasks = random.within(0..=3);
        let small = sheets::compact(random, tasks);
        let sheet = match round % 4 {
            0 => {
                let tasks = if round % 64 == 0 { 256 } else { random.within(7..=12) };
                sheets::with_shape(random, tasks, sheets::Shape::Sparse).encode()
            }
            1 => sheets::Sheet { cube: 1, ..small }.encode(),
            2 => sheets::bare(random).encode(),
            // Of three tasks in full order a damage doubles a link now and then.
            _ => {
                let linked = sheets::with_shape(random, 3, sheets::Shape::Dense);
                faulty_sheet(random, &linked, if round % 64 == 3 { 2 } else { round / 4 % 2 })
            }
        };
        c.least(&sheet)?;
    }
    Ok(())
}

/// The trial sheets and the figures on every number of processors.
pub fn trials(c: &mut Comparison) -> Outcome {
    for mut sheet in trial_files(".sheet") {
        for processors in 0..=17 {
            sheet[1] = processors;
            c.least(&sheet)?;
        }
    }
    Ok(())
}
