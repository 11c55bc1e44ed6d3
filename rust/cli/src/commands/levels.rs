//! `levels`: the b-level of each task.

use super::Command;
use crate::answer::{Answer, Fault};
use crate::arguments::Arguments;
use crate::loader::{Loader, SheetFile};
use crate::table::aligned;

pub const COMMAND: Command = Command {
    name: "levels",
    usage: "SHEET",
    files: 1..=1,
    options: &[],
    brief: "the level of each task: the longest way from it to an end",
    full: "\
The b-level of each task: the greatest sum of work and link costs on a path from it to a task
without successors, its own work included. Among ready tasks a higher level tends to go first.",
    answer,
};

fn answer(loader: &mut Loader, arguments: &Arguments) -> Result<Answer, Fault> {
    let of = loader.sheet(&arguments.files[0])?;
    let levels = loader.work.levels(&of.sheet).expect("the sheet was read");
    Ok(Answer::text(by_task(&of, "level", &levels)))
}

/// A table with the work and a number of each task.
pub fn by_task(of: &SheetFile, what: &str, numbers: &[u32]) -> String {
    let mut rows = vec![["task", "work", what].map(str::to_string).into()];
    for (task, (values, number)) in of.sheet.tasks().iter().zip(numbers).enumerate() {
        rows.push(vec![of.names.shown(task), values.work.to_string(), number.to_string()]);
    }
    aligned(&rows)
}
