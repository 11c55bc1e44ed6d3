//! `list`: when each task of an accepted bundle runs.

use super::check::{accepted, needed_bundle};
use super::Command;
use crate::answer::{Answer, Fault};
use crate::arguments::Arguments;
use crate::loader::Loader;
use crate::table::aligned;
use crate::trace::Trace;
use zeldrupa::Board;

pub const COMMAND: Command = Command {
    name: "list",
    usage: "SHEET [BUNDLE]",
    files: 1..=2,
    options: &[],
    brief: "when each task of an accepted bundle runs, with waits and stores",
    full: "\
Steps the machine through an accepted bundle, planned or made by hand. For each task: its processor,
its start and finish, and how long its processor waited for messages directly before it. For each
processor: when it ends, how long it worked and waited in all, and its highest store in use. On a
board with unpacking also how long it unpacked, which is no work.",
    answer,
};

fn answer(loader: &mut Loader, arguments: &Arguments) -> Result<Answer, Fault> {
    let sheet = loader.sheet(&arguments.files[0])?;
    let bundle = needed_bundle(loader, &sheet, &arguments.files, &COMMAND)?;
    loader.check(&sheet, &bundle)?;
    let trace = Trace::of(loader.start(&sheet, &bundle)?);

    let mut text = accepted(&bundle.bundle);
    let Board { limit, unpacking, .. } = sheet.sheet.board();
    let heads = ["task", "processor", "start", "finish", "waited", "unpacked"];
    let mut tasks = vec![heads.map(str::to_string).to_vec()];
    tasks.extend(trace.runs().iter().map(|run| {
        let numbers = [run.processor as u32, run.start, run.finish, run.waited, run.unpacked];
        let cells = numbers.iter().map(u32::to_string);
        [sheet.names.shown(run.task)].into_iter().chain(cells).collect()
    }));
    let heads = ["processor", "ends", "worked", "waited", "unpacked", "store", "limit"];
    let mut processors = vec![heads.map(str::to_string).to_vec()];
    for processor in 0..trace.processors {
        let events = || trace.of_processor(processor);
        let ends = events().map(|event| event.finish).max().unwrap_or(0);
        let waited: u32 = events().map(|event| event.waited()).sum();
        let unpacked: u32 = events().map(|event| event.unpacked()).sum();
        let worked = ends - waited - unpacked;
        let store = trace.highest_store(processor);
        let numbers = [processor as u32, ends, worked, waited, unpacked, store, limit];
        processors.push(numbers.iter().map(u32::to_string).collect());
    }
    if unpacking == 0 {
        tasks.iter_mut().for_each(|row| drop(row.remove(5)));
        processors.iter_mut().for_each(|row| drop(row.remove(4)));
    }
    text += &format!("{}\n{}", aligned(&tasks), aligned(&processors));
    Ok(Answer::text(text))
}
