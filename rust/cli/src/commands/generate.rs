//! `generate`: the sheet that a seed gives, as text or as bytes.

use super::Command;
use crate::answer::{Answer, Fault};
use crate::arguments::Arguments;
use crate::loader::Loader;
use crate::text::{sheet_text, Names};
use zeldrupa::Load;

pub const COMMAND: Command = Command {
    name: "generate",
    usage: "SEED --tasks N --tries M --processors P --limit L [-o FILE]",
    files: 1..=1,
    options: &[
        ("--tasks", "how many tasks: 1 to 256"),
        ("--tries", "how often a link is tried: 0 to 1024"),
        ("--processors", "the processors of the board: 1 to 16"),
        ("--limit", "the store limit of each processor"),
        ("-o", "write the sheet's bytes to this file; `-` is standard output"),
    ],
    brief: "make a sheet from a seed, the same whenever it is asked for",
    full: "\
Makes a test load: a sheet whose tasks and links are drawn from SEED, 1 to 4294967295. A task has a
work of 1 to 100 and a store of 0 to 63; each try draws two tasks, a cost of 0 to 49 and 0 to 15
bytes, and gives a link if it leads from the lower to the higher number and is not there yet. The
same numbers give the same sheet. Without -o it is shown as text.",
    answer,
};

fn answer(loader: &mut Loader, arguments: &Arguments) -> Result<Answer, Fault> {
    let seed = number("SEED", &arguments.files[0].to_string_lossy())?;
    let given = |option| match arguments.text(option) {
        Some(text) => number(option, &text),
        None => Err(COMMAND.misused(&format!("needs {option}"))),
    };
    let load = Load {
        seed,
        tasks: given("--tasks")?,
        tries: given("--tries")?,
        processors: given("--processors")?,
        limit: given("--limit")?,
    };
    let sheet = loader.work.generate(load).map_err(|refusal| {
        let (number, place) = (refusal.number(), refusal.place());
        let explained = refusal.explain_load(load);
        Fault::Refused(format!("REFUSED {number} {place}\n{explained}\n"))
    })?;
    Ok(match arguments.file("-o") {
        Some(file) => Answer::to(Some(file), sheet.bytes().to_vec()),
        None => Answer::text(sheet_text(&sheet, &Names::none(sheet.tasks().len()))),
    })
}

/// A number of 32 bits.
fn number(of: &str, text: &str) -> Result<u32, Fault> {
    let digits = !text.is_empty() && text.bytes().all(|byte| byte.is_ascii_digit());
    let number = digits.then(|| text.parse().ok()).flatten();
    number.ok_or_else(|| {
        COMMAND.misused(&format!("takes a number of 0 to 4294967295 for {of}, not \"{text}\""))
    })
}
