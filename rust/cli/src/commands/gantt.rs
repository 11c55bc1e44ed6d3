//! `gantt`: a bundle as a picture.

use super::Command;
use crate::answer::{Answer, Fault};
use crate::arguments::Arguments;
use crate::loader::{BundleFile, Loader};
use crate::picture::{svg, terminal, Picture};
use std::path::PathBuf;

pub const COMMAND: Command = Command {
    name: "gantt",
    usage: "SHEET [BUNDLE] [-o FILE.svg] [--width N]",
    files: 1..=2,
    options: &[
        ("-o", "write the picture as SVG to this file; `-` is standard output"),
        ("--width", "how many characters wide the picture in the terminal is (100)"),
    ],
    brief: "draw a bundle, or the plan of a sheet: who does what when",
    full: "\
Draws a row for each processor with its tasks, waits, receives and unpacking, the messages as lines
between the rows, a time axis and the claim: of the bundle, or of the sheet's plan if none is given.
In the terminal a wait is `...`, a receive `>` and unpacking `~~~`. In the SVG a ring is where store
is given back; pointed at, it tells what and how much is then in use. Of a bundle that gets stuck the
picture shows how far each processor comes, and the circle of those that wait for each other; the
refusal is told on standard error, and the exit status is 1.",
    answer,
};

fn answer(loader: &mut Loader, arguments: &Arguments) -> Result<Answer, Fault> {
    let width = match arguments.text("--width") {
        None => 100,
        Some(width) => match width.parse() {
            Ok(width) if (40..=1000).contains(&width) => width,
            _ => return Err(COMMAND.misused("takes a width of 40 to 1000")),
        },
    };
    let of = loader.sheet(&arguments.files[0])?;
    let bundle = match loader.given_bundle(&of, arguments.files.get(1).map(PathBuf::as_path))? {
        Some(bundle) => bundle,
        None => BundleFile::planned(&of.file, loader.plan(&of)?),
    };
    // What does not even start has no picture; what gets stuck or claims wrongly has one.
    let trace = crate::trace::Trace::of(loader.start(&of, &bundle)?);
    let refusal = loader.check(&of, &bundle).err();
    let picture = Picture { of: &of, bundle: &bundle, trace: &trace };
    let bytes = match arguments.value("-o") {
        Some(_) => svg::draw(&picture),
        None => terminal::draw(&picture, width),
    };
    let mut answer = Answer::to(arguments.file("-o"), bytes.into_bytes());
    if let Some(refusal) = refusal {
        answer.accepted = false;
        answer.complaint = refusal.to_string();
    }
    Ok(answer)
}
