//! The families of test loads, the sheets of seeds.

use crate::comparison::{Comparison, Outcome};
use crate::rules::Rules;
use inputs::loads::{self, Load};
use inputs::sheets::{MOST_LINKS, MOST_TASKS};

/// The first seeds, each with every small number of tasks and tries; their sheets are read.
pub fn first_seeds<R: Rules>(c: &mut Comparison<R>) -> Outcome {
    for seed in 1..=200 {
        for tasks in 1..=6 {
            for tries in 0..=8 {
                let load = Load { seed, tasks, tries, processors: 1 + seed % 16, limit: 200 };
                c.generate(load, |c, sheet| c.read_sheet(sheet))?;
            }
        }
    }
    Ok(())
}

/// Any seeds, with a few tasks and tries.
pub fn small<R: Rules>(c: &mut Comparison<R>) -> Outcome {
    for round in 0..40_000 {
        let load = loads::within(&mut c.random, 1 + round % 9, round % 24);
        c.generate(load, |_, _| Ok(()))?;
    }
    Ok(())
}

/// Loads at the edges of their ranges: 1 and 256 tasks, 0 and 1,024 tries, and one off.
pub fn edges<R: Rules>(c: &mut Comparison<R>) -> Outcome {
    for load in loads::edges(&mut c.random) {
        c.generate(load, |_, _| Ok(()))?;
    }
    Ok(())
}

/// Loads out of their ranges.
pub fn outside<R: Rules>(c: &mut Comparison<R>) -> Outcome {
    for _ in 0..5000 {
        let load = loads::outside(&mut c.random);
        c.generate(load, |_, _| Ok(()))?;
    }
    Ok(())
}

/// Loads of all sizes, whose sheets are read.
pub fn any<R: Rules>(c: &mut Comparison<R>) -> Outcome {
    for _ in 0..20_000 {
        let load = loads::within(&mut c.random, MOST_TASKS, MOST_LINKS);
        c.generate(load, |c, sheet| c.read_sheet(sheet))?;
    }
    Ok(())
}

/// Loads that are planned, with store enough and with too little.
pub fn planned<R: Rules>(c: &mut Comparison<R>) -> Outcome {
    for round in 0..4000 {
        let load = loads::tight(&mut c.random, 1 + round % 96, round % 256);
        c.generate(load, |c, sheet| c.plan(sheet))?;
    }
    Ok(())
}
