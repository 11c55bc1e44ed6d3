//! `drift`: how far each job's time may drift.

use super::check::needed_bundle;
use super::levels::by_task;
use super::Command;
use crate::answer::{Answer, Fault};
use crate::arguments::Arguments;
use crate::loader::Loader;

pub const COMMAND: Command = Command {
    name: "drift",
    usage: "SHEET [BUNDLE]",
    files: 1..=2,
    options: &[],
    brief: "how much longer each task may take before an accepted bundle ends later",
    full: "\
Of each task of an accepted bundle its work, and the greatest time by which it can be longer without
the last processor being done later. That is told for one task alone: two on one way use up the same
time. A task of drift 0 is on a way that decides the claim.",
    answer,
};

fn answer(loader: &mut Loader, arguments: &Arguments) -> Result<Answer, Fault> {
    let of = loader.sheet(&arguments.files[0])?;
    let given = needed_bundle(loader, &of, &arguments.files, &COMMAND)?;
    let drifts = loader.work.drift(&of.sheet, &given.bundle);
    let drifts = drifts.map_err(|refusal| given.refused(&of, refusal))?;
    Ok(Answer::text(by_task(&of, "drift", &drifts)))
}
