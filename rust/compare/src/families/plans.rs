//! The families of the planner and the listing: sheets by what decides in their plans.

use super::{faulty_sheet, mostly_small, seldom_largest, trial_files};
use crate::comparison::{Comparison, Outcome};
use inputs::sheets;
use reference::trials;

/// The trial sheets, K9 and K10 and the figures, on every number of processors.
pub fn trials(c: &mut Comparison) -> Outcome {
    let cut = trials::k9_and_k10().into_iter().map(|(_, sheet)| sheet);
    for mut sheet in trial_files(".sheet").into_iter().chain(cut) {
        c.plan(&sheet)?;
        for processors in 0..=17 {
            if let Some(byte) = sheet.get_mut(1) {
                *byte = processors;
            }
            c.plan(&sheet)?;
        }
    }
    Ok(())
}

/// Plans so many sheets, each made for its round.
fn made(
    c: &mut Comparison,
    rounds: usize,
    make: impl Fn(&mut Comparison, usize) -> sheets::Sheet,
) -> Outcome {
    for round in 0..rounds {
        let values = make(c, round);
        c.plan(&values.encode())?;
    }
    Ok(())
}

/// Valid sheets of any size, shape and weights.
pub fn any(c: &mut Comparison) -> Outcome {
    made(c, 15_000, |c, round| {
        let mut values = seldom_largest(c, round);
        if c.random.once_in(2) {
            values.limit = u32::MAX;
        }
        values
    })
}

/// Sheets with small weights, in which ties are common.
pub fn ties(c: &mut Comparison) -> Outcome {
    made(c, 15_000, |c, round| {
        sheets::telling(&mut c.random, if round % 16 == 0 { sheets::MOST_TASKS } else { 24 })
    })
}

/// Sheets on which the guard often decides.
pub fn guarded(c: &mut Comparison) -> Outcome {
    made(c, 15_000, |c, _| sheets::guarded(&mut c.random))
}

/// Sheets whose limit lies between what the greatest task needs and all tasks need together.
pub fn little_store(c: &mut Comparison) -> Outcome {
    made(c, 12_000, |c, round| {
        let mut values = match round % 2 {
            0 => mostly_small(c, round / 2),
            _ => sheets::guarded(&mut c.random),
        };
        sheets::tighten(&mut c.random, &mut values);
        values
    })
}

/// Sheets whose links cost nothing, or mostly nothing.
pub fn free_messages(c: &mut Comparison) -> Outcome {
    made(c, 5000, |c, round| {
        let mut values = seldom_largest(c, round);
        values.limit = u32::MAX;
        sheets::free_links(&mut c.random, &mut values);
        values
    })
}

/// Sheets on which a task often starts on an open processor just when its messages are there: one that
/// fits or does not, that the guard bars or does not, and with a processor left or none.
pub fn shared_processors(c: &mut Comparison) -> Outcome {
    made(c, 15_000, |c, round| {
        let mut values = match round % 4 {
            0 => sheets::guarded(&mut c.random),
            1 if round % 64 == 1 => return sheets::sharing(&mut c.random, sheets::MOST_TASKS),
            _ => return sheets::sharing(&mut c.random, 32),
        };
        sheets::free_links(&mut c.random, &mut values);
        if c.random.once_in(4) {
            sheets::tighten(&mut c.random, &mut values);
        }
        values
    })
}

/// Sheets in which works, stores, costs, bytes or unpacking, or all of them on a cube, have their greatest value.
pub fn greatest_values(c: &mut Comparison) -> Outcome {
    made(c, 600, |c, round| {
        let mut values = match round % 4 {
            0 => sheets::with_shape(&mut c.random, sheets::MOST_TASKS, sheets::Shape::Chain),
            _ => sheets::largest(&mut c.random),
        };
        values.limit = u32::MAX;
        values.processors = c.random.pick(&[1, 2, 15, 16]);
        if round % 3 == 0 || c.random.once_in(3) {
            values.unpacking = u16::MAX;
            values.cube = 1;
        }
        for field in 0..4 {
            let (list, width) = match field {
                0..=1 => (&mut values.tasks, 2),
                _ => (&mut values.links, 4),
            };
            if round % 3 == 0 || c.random.once_in(3) {
                list.iter_mut().skip(field).step_by(width).for_each(|value| *value = u16::MAX);
            }
        }
        values
    })
}

/// Damaged and cut sheets, circles, and sheets past all limits.
pub fn faulty_sheets(c: &mut Comparison) -> Outcome {
    for round in 0..8000 {
        let values = mostly_small(c, round);
        let sheet = faulty_sheet(&mut c.random, &values, round);
        c.plan(&sheet)?;
    }
    let whole = sheets::largest(&mut c.random).encode();
    for length in (0..whole.len()).step_by(37) {
        c.plan(&whole[..length])?;
    }
    c.plan(&[&whole[..], &[0x51; 100_000]].concat())
}
