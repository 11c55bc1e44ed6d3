//! "How far may a job's time drift?": "a report with, for every task in number order, the greatest d that
//! leaves the finishing time unchanged".

use crate::bundle::Bundle;
use crate::checker::run_out;
use crate::sheet::Sheet;

/// The report of an accepted bundle.
pub fn report(sheet: &Sheet, bundle: &Bundle) -> Vec<u64> {
    let finish = finishing_time(sheet, bundle);
    let leaves = |task, d| finishing_time(&raised(sheet, task, d), bundle) == finish;
    // No task ends before it has worked, so that a greater d than the finishing time moves it.
    (0..sheet.tasks.len()).map(|task| greatest(finish, |d| leaves(task, d))).collect()
}

/// The sheet with "one task's work" raised "by d": "lengthened works may pass 65,535 in the statement, not
/// in a sheet".
pub fn raised(sheet: &Sheet, task: usize, d: u64) -> Sheet {
    let mut raised = sheet.clone();
    raised.tasks[task].work += d;
    raised
}

/// "Claims are left as written in the bundle; the report works on clocks": the latest one at the end.
pub fn finishing_time(sheet: &Sheet, bundle: &Bundle) -> u64 {
    run_out(sheet, bundle).latest_clock()
}

/// The greatest number up to `most` that has a property, which 0 has, and behind one that has it not no
/// other does: raising a work "moves the finishing time by no less than 0".
fn greatest(most: u64, has: impl Fn(u64) -> bool) -> u64 {
    let (mut low, mut high) = (0, most);
    while low < high {
        let middle = low + (high - low).div_ceil(2);
        match has(middle) {
            true => low = middle,
            false => high = middle - 1,
        }
    }
    low
}
