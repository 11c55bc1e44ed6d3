//! "Levels", as far as it is about the sheet alone.

use crate::sheet::Sheet;

/// "The b-level of a task is the greatest sum of work and link costs on a path from it to a task
/// without successors, its own work included. No cost is taken as nought here." One path after the
/// other.
pub fn level(sheet: &Sheet, task: usize) -> u64 {
    let behind = sheet.links_out_of(task).map(|(_, link)| link.cost + level(sheet, link.to));
    sheet.tasks[task].work + behind.max().unwrap_or(0)
}

/// The b-level of each task.
pub fn levels(sheet: &Sheet) -> Vec<u64> {
    (0..sheet.tasks.len()).map(|task| level(sheet, task)).collect()
}
