//! `plan`: a sheet's listing, or its bundle.

use super::{verdict, Command};
use crate::answer::{Answer, Fault};
use crate::arguments::Arguments;
use crate::loader::{Loader, SheetFile};

pub const COMMAND: Command = Command {
    name: "plan",
    usage: "SHEET [-o BUNDLE]",
    files: 1..=1,
    options: &[("-o", "write the bundle's bytes to this file; `-` is standard output")],
    brief: "plan a sheet: the listing, or the bundle",
    full: "\
Plans a sheet. The listing has `PLAN`, the processors that run a task and the claim, then for each
task its processor, its start and its finish; with -o the bundle is written instead.",
    answer,
};

fn answer(loader: &mut Loader, arguments: &Arguments) -> Result<Answer, Fault> {
    let sheet = loader.sheet(&arguments.files[0]);
    match arguments.file("-o") {
        Some(file) => {
            let bundle = loader.plan(&sheet?)?;
            Ok(Answer::to(Some(file), bundle.bytes().to_vec()))
        }
        None => verdict(sheet.and_then(|sheet| listing(loader, &sheet))),
    }
}

/// The library's listing, with the names of the tasks for their numbers.
fn listing(loader: &mut Loader, of: &SheetFile) -> Result<Answer, Fault> {
    loader.plan(of)?;
    let listing = loader.work.listing(&of.sheet);
    let mut lines = listing.lines();
    let mut text = format!("{}\n", lines.next().unwrap_or_default());
    for (task, line) in lines.enumerate() {
        let rest = line.split_once(' ').map_or("", |(_, rest)| rest);
        text += &format!("{} {rest}\n", of.names.shown(task));
    }
    Ok(Answer::text(text))
}
