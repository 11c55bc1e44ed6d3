//! `compare`: the plans of two sheets.

use super::{working, Command};
use crate::answer::{Answer, Fault};
use crate::arguments::Arguments;
use crate::loader::{Loader, SheetFile};
use crate::table::aligned;
use crate::trace::{Ran, Trace};

pub const COMMAND: Command = Command {
    name: "compare",
    usage: "SHEET SHEET",
    files: 2..=2,
    options: &[],
    brief: "plan two sheets: both claims, and which tasks moved",
    full: "\
Plans both sheets and says what changes from the first to the second: the claim, the processors, and
each task whose processor, start or finish differs. Tasks are the same by name where both sheets
have names, else by number.",
    answer,
};

/// A sheet, its plan's claim, and where its tasks run.
struct Planned {
    of: SheetFile,
    claim: u32,
    processors: usize,
    runs: Vec<Ran>,
}

fn answer(loader: &mut Loader, arguments: &Arguments) -> Result<Answer, Fault> {
    let one = planned(loader, &arguments.files[0])?;
    let other = planned(loader, &arguments.files[1])?;
    let processors = change(one.processors as u32, other.processors as u32);
    let mut text = format!("claim {}\nprocessors {processors}\n", change(one.claim, other.claim));

    let by_name = one.of.names.any() && other.of.names.any();
    let same = |from: &Planned, task: usize, to: &Planned| match by_name {
        true => from.of.names.name(task).and_then(|name| to.of.names.number(name)),
        false => (task < to.runs.len()).then_some(task),
    };
    let mut rows = vec![["moved", "processor", "start", "finish"].map(str::to_string).into()];
    let mut alone = String::new();
    for run in &one.runs {
        let name = one.of.names.shown(run.task);
        let Some(task) = same(&one, run.task, &other) else {
            alone += &format!("only in {}: {name}\n", one.of.file);
            continue;
        };
        let to = other.runs[task];
        let pairs = [
            (run.processor as u32, to.processor as u32),
            (run.start, to.start),
            (run.finish, to.finish),
        ];
        if pairs.iter().any(|(from, to)| from != to) {
            let cells = pairs.iter().map(|&(from, to)| change(from, to));
            rows.push([name].into_iter().chain(cells).collect());
        }
    }
    for run in other.runs.iter().filter(|run| same(&other, run.task, &one).is_none()) {
        alone += &format!("only in {}: {}\n", other.of.file, other.of.names.shown(run.task));
    }
    text += &match rows.len() {
        1 => "no task moved\n".to_string(),
        _ => "\n".to_string() + &aligned(&rows),
    };
    Ok(Answer::text(text + &alone))
}

fn planned(loader: &mut Loader, path: &std::path::Path) -> Result<Planned, Fault> {
    let of = loader.sheet(path)?;
    let bundle = loader.plan(&of)?;
    let machine = loader.work.start(&of.sheet, &bundle).expect("a plan is accepted");
    let runs = Trace::of(machine).runs();
    let (claim, processors) = (bundle.claim(), working(&bundle));
    Ok(Planned { of, claim, processors, runs })
}

/// A number, and what it becomes if that is another.
fn change(from: u32, to: u32) -> String {
    match from == to {
        true => from.to_string(),
        false => format!("{from} -> {to}"),
    }
}
