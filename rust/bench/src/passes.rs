//! Passes over all lines of a table, each in a process of its own.
//!
//! A process may be slower than another in one column for as long as it lives, and between two passes
//! over a line are all the other lines: neither such a process nor a neighbour on a shared machine
//! settles a line.

use crate::table::Table;
use crate::timing::{Pair, Times};
use std::process::{Command, Stdio};
use std::{env, io};

/// How many passes there are.
const PASSES: usize = 7;
/// The argument for which a process makes one pass.
pub const PASS: &str = "pass";

/// Measures every line of a table and writes its times, for the process that asked.
pub fn write_one(table: &Table) {
    for line in table.lines() {
        let Pair { product, rewrite } = (line.measure)(line.case);
        println!("{} {} {} {}", product.least, product.median, rewrite.least, rewrite.median);
    }
}

/// Measures every line of a table in each pass.
pub fn over_all(table: &Table) -> io::Result<Vec<Pair>> {
    let passes = (0..PASSES).map(|_| one(table)).collect::<io::Result<Vec<_>>>()?;
    let line = |number: usize| passes.iter().map(|pass| pass[number]).collect();
    Ok((0..table.lines().count()).map(|number| Pair::over(line(number))).collect())
}

/// Has a process make one pass, and reads its times.
fn one(table: &Table) -> io::Result<Vec<Pair>> {
    let mut command = Command::new(env::current_exe()?);
    let output = command.args([PASS, table.name]).stderr(Stdio::inherit()).output()?;
    let text = String::from_utf8_lossy(&output.stdout);
    let pairs: Option<Vec<Pair>> = text.lines().map(pair).collect();
    match pairs {
        Some(pairs) if output.status.success() && pairs.len() == table.lines().count() => Ok(pairs),
        _ => Err(io::Error::other("a pass did not end well")),
    }
}

/// The times of one line of a pass.
fn pair(line: &str) -> Option<Pair> {
    let times: Vec<f64> = line.split(' ').map(|time| time.parse().ok()).collect::<Option<_>>()?;
    let &[least, median, their_least, their_median] = &times[..] else {
        return None;
    };
    Some(Pair {
        product: Times { least, median },
        rewrite: Times { least: their_least, median: their_median },
    })
}
