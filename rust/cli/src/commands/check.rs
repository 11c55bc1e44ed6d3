//! `check`: whether a bundle is accepted.

use super::{verdict, Command};
use crate::answer::{Answer, Fault};
use crate::arguments::Arguments;
use crate::loader::{BundleFile, Loader, SheetFile};
use std::path::PathBuf;
use zeldrupa::{Bundle, Command as Step};

pub const COMMAND: Command = Command {
    name: "check",
    usage: "SHEET [BUNDLE]",
    files: 1..=2,
    options: &[],
    brief: "check a bundle: accepted, or refused and why",
    full: "\
Checks a bundle for a sheet. An accepted bundle runs to its claimed time in every order of steps,
within the store; that is proved. The answer names the claim and how many processors run a task, or
the refusal's number and place, what it means, where it is and what to do.",
    answer,
};

fn answer(loader: &mut Loader, arguments: &Arguments) -> Result<Answer, Fault> {
    verdict(checked(loader, arguments))
}

fn checked(loader: &mut Loader, arguments: &Arguments) -> Result<Answer, Fault> {
    let sheet = loader.sheet(&arguments.files[0])?;
    let bundle = needed_bundle(loader, &sheet, &arguments.files, &COMMAND)?;
    loader.check(&sheet, &bundle)?;
    Ok(Answer::text(accepted(&bundle.bundle)))
}

/// The bundle that a command was given, in a file of its own or in the sheet's text.
pub fn needed_bundle(
    loader: &mut Loader,
    sheet: &SheetFile,
    files: &[PathBuf],
    command: &Command,
) -> Result<BundleFile, Fault> {
    let bundle = loader.given_bundle(sheet, files.get(1).map(PathBuf::as_path))?;
    bundle.ok_or_else(|| command.misused("needs a bundle: this sheet has no programmes"))
}

/// The line of an accepted bundle.
pub fn accepted(bundle: &Bundle) -> String {
    format!("ACCEPTED claim {} processors {}\n", bundle.claim(), working(bundle))
}

/// How many processors run a task.
pub fn working(bundle: &Bundle) -> usize {
    let runs = |programme: &&Vec<Step>| programme.iter().any(|step| matches!(step, Step::Run(_)));
    bundle.programmes().iter().filter(runs).count()
}
