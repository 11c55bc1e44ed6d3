//! `release`: an accepted bundle with store given back as early as can be.

use super::check::needed_bundle;
use super::Command;
use crate::answer::{Answer, Fault};
use crate::arguments::Arguments;
use crate::loader::{BundleFile, Loader, SheetFile};
use crate::table::aligned;
use crate::trace::Trace;
use zeldrupa::Bundle;

pub const COMMAND: Command = Command {
    name: "release",
    usage: "SHEET [BUNDLE] [-o FILE]",
    files: 1..=2,
    options: &[("-o", "write the bundle's bytes to this file; `-` is standard output")],
    brief: "give back store that is finished with: the bundle with its releases",
    full: "\
Puts a release of each result and each received message into an accepted bundle, as early as it is
right. The claim stays and no processor ever needs more store; that is proved. A bundle that has any
release stays as it is. The answer says how many releases there are, and the highest store in use of
each processor before and after; with -o the bundle is written instead. As text it is shown by
zeldrupa release SHEET BUNDLE -o - | zeldrupa show - --sheet SHEET",
    answer,
};

fn answer(loader: &mut Loader, arguments: &Arguments) -> Result<Answer, Fault> {
    let of = loader.sheet(&arguments.files[0])?;
    let given = needed_bundle(loader, &of, &arguments.files, &COMMAND)?;
    let passed = loader.work.release(&of.sheet, &given.bundle);
    let passed = passed.map_err(|refusal| given.refused(&of, refusal))?;
    match arguments.file("-o") {
        Some(file) => Ok(Answer::to(Some(file), passed.bytes().to_vec())),
        None => Ok(Answer::text(stores(loader, &of, &given, passed))),
    }
}

/// The line of the passed bundle, and the stores of both.
fn stores(loader: &mut Loader, of: &SheetFile, given: &BundleFile, passed: Bundle) -> String {
    let [before, after] = [&given.bundle, &passed].map(|bundle| {
        Trace::of(loader.work.start(&of.sheet, bundle).expect("an accepted bundle starts"))
    });
    let releases = after.events.iter().filter(|event| event.gives_back()).count();
    let heads = ["processor", "before", "after", "limit"];
    let mut rows = vec![heads.map(str::to_string).to_vec()];
    for k in 0..after.processors {
        let stores = [before.highest_store(k), after.highest_store(k), of.sheet.board().limit];
        let cells = stores.iter().map(u32::to_string);
        rows.push([k.to_string()].into_iter().chain(cells).collect());
    }
    format!("RELEASED claim {} releases {releases}\n{}", passed.claim(), aligned(&rows))
}
