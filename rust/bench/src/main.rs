//! The benchmark: microseconds a call of the product and of the rewrite, bytes to bytes, in turns.
//!
//! `bench` prints a row for each shape of sheet and each call; `bench growth` the table of
//! docs/SPEED.md, from 16 tasks to 256.

mod calls;
mod cases;
mod passes;
mod steps;
mod table;
mod timing;

use calls::MOST_OF_DRIFT;
use passes::{over_all, write_one, PASS};
use std::process::ExitCode;
use std::{env, fs, io};
use table::Table;
use timing::Pair;

/// How it is measured.
const HEAD: &str = "\
Microseconds a call, bytes to bytes; ratio of the medians, product to rewrite. There are seven passes
over all lines, each in a process of its own: least of all, and the medians of the pass with the
middle ratio. The largest sheets have 256 tasks, 1,024 links and 16 processors, the typical ones 40,
80 and 8; of the unpacked ones each receive takes 12. The unpacked cube is a random one. The bundles of
the released ones have their releases. For the least time the rewrite tries every arrangement. Beside
the report of drifts stands, for the rewrite, a check of the product's own. Lent buffers are made once,
outside the timing, and not cleared between calls. Within the times are that the product clears its
work area in each call, and that the rewrite allocates its tables.
";

fn main() -> ExitCode {
    let arguments: Vec<String> = env::args().skip(1).collect();
    let words: Vec<&str> = arguments.iter().map(String::as_str).collect();
    let measured = match words[..] {
        [] => all_calls(),
        ["growth"] => growth(),
        [PASS, table] => one_pass(table),
        _ => Err(io::Error::other("usage: bench [growth]")),
    };
    match measured {
        Ok(()) => ExitCode::SUCCESS,
        Err(error) => {
            eprintln!("{error}");
            ExitCode::FAILURE
        }
    }
}

/// The times of a table in this process.
fn one_pass(table: &str) -> io::Result<()> {
    let table = Table::named(table).ok_or_else(|| io::Error::other("no such table"))?;
    write_one(&table);
    Ok(())
}

/// A row for each case and call, and again those in which the product is slower.
fn all_calls() -> io::Result<()> {
    println!("Product and rewrite on {}, both built for release, in turns.", processor());
    print!("{HEAD}");
    println!("Clearing it alone takes {:.3}.\n", calls::clearing().median);
    println!("{:<17}{:<10}{:>10}{:>10}{:>10}{:>10}{:>7}", "", "", "product", "", "rewrite", "", "");
    println!(
        "{:<17}{:<10}{:>10}{:>10}{:>10}{:>10}{:>7}",
        "sheet", "call", "least", "median", "least", "median", "ratio"
    );
    let table = Table::of_calls();
    let mut slower = Vec::new();
    for (line, pair) in table.lines().zip(over_all(&table)?) {
        let row = row(&line.case.name, line.call, &pair);
        println!("{row}");
        if pair.ratio() > line.most() {
            slower.push(row);
        }
    }
    println!("\nRatio above 1.0, of drift above {MOST_OF_DRIFT:.1}: {} lines", slower.len());
    slower.iter().for_each(|row| println!("{row}"));
    Ok(())
}

fn row(case: &str, call: &str, pair: &Pair) -> String {
    let Pair { product, rewrite } = pair;
    let times = [product.least, product.median, rewrite.least, rewrite.median];
    let cells = times.map(|time| format!("{time:>10.*}", if time < 0.1 { 5 } else { 3 }));
    format!("{case:<17}{call:<10}{}{:>7.2}", cells.concat(), pair.ratio())
}

/// Plan and check by the number of tasks.
fn growth() -> io::Result<()> {
    println!("On {}; medians in microseconds, least in brackets.\n", processor());
    println!("| tasks | links | plan, product | plan, rewrite | check, product | check, rewrite |");
    println!("|---|---|---|---|---|---|");
    let table = Table::of_growth();
    let pairs = over_all(&table)?;
    for (case, pairs) in table.cases.iter().zip(pairs.chunks(pairs.len() / table.cases.len())) {
        let times = pairs.iter().flat_map(|pair| [pair.product, pair.rewrite]);
        let cells = times.map(|times| format!("{:.1} ({:.1})", times.median, times.least));
        let tasks: usize = case.name.parse().expect("a number of tasks");
        println!("| {tasks} | {} | {} |", 4 * tasks, cells.collect::<Vec<_>>().join(" | "));
    }
    Ok(())
}

/// The name of this machine's processor.
fn processor() -> String {
    let text = fs::read_to_string("/proc/cpuinfo").unwrap_or_default();
    let name = text.lines().find_map(|line| line.strip_prefix("model name")?.split_once(": "));
    name.map_or("a processor without a name".into(), |(_, name)| name.into())
}
