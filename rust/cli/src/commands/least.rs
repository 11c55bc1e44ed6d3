//! `least`: the best bundle of a small sheet.

use super::{verdict, working, Command};
use crate::answer::{Answer, Fault};
use crate::arguments::Arguments;
use crate::loader::{Loader, SheetFile};
use crate::trace::{Ran, Trace};
use zeldrupa::Bundle;

pub const COMMAND: Command = Command {
    name: "least",
    usage: "SHEET [-o BUNDLE]",
    files: 1..=1,
    options: &[("-o", "write the bundle's bytes to this file; `-` is standard output")],
    brief: "the least time of a sheet of at most six tasks, and its bundle",
    full: "\
Finds the best bundle of a sheet of at most six tasks that is no cube: the least claim, then fewest
processors, then the lowest bytes. The listing has `LEAST`, the processors that run a task and the
claim, then for each task its processor, its start and its finish; with -o the bundle is written
instead. It has no releases. On a board without unpacking no other accepted bundle without releases
claims less; that is proved.",
    answer,
};

fn answer(loader: &mut Loader, arguments: &Arguments) -> Result<Answer, Fault> {
    let found = loader.sheet(&arguments.files[0]).and_then(|sheet| {
        let bundle = loader.least(&sheet)?;
        Ok((sheet, bundle))
    });
    match arguments.file("-o") {
        Some(file) => Ok(Answer::to(Some(file), found?.1.bytes().to_vec())),
        None => verdict(found.map(|(sheet, bundle)| listing(loader, &sheet, &bundle))),
    }
}

/// The processors, the claim, and where and when each task runs.
fn listing(loader: &mut Loader, of: &SheetFile, bundle: &Bundle) -> Answer {
    let machine = loader.work.start(&of.sheet, bundle).expect("the best bundle is accepted");
    let mut text = format!("LEAST {} {}\n", working(bundle), bundle.claim());
    for Ran { task, processor, start, finish, .. } in Trace::of(machine).runs() {
        text += &format!("{} {processor} {start} {finish}\n", of.names.shown(task));
    }
    Answer::text(text)
}
