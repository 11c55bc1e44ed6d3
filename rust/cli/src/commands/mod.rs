//! The commands of the tool, each with its files, options and help.

mod better;
mod check;
mod compare;
mod drift;
mod gantt;
mod generate;
mod least;
mod levels;
mod list;
mod pack;
mod plan;
mod release;
mod run;
mod show;
mod weight;

use crate::answer::{Answer, Fault};
use crate::arguments::Arguments;
use crate::loader::Loader;
use std::ops::RangeInclusive;

pub use check::working;

/// A command.
pub struct Command {
    pub name: &'static str,
    /// Its files and options as the help shows them.
    usage: &'static str,
    /// How many files it takes.
    pub files: RangeInclusive<usize>,
    /// Each option with what it means; every option has a value.
    pub options: &'static [(&'static str, &'static str)],
    /// What it does, in a line and in full.
    brief: &'static str,
    full: &'static str,
    pub answer: fn(&mut Loader, &Arguments) -> Result<Answer, Fault>,
}

pub static COMMANDS: [Command; 15] = [
    plan::COMMAND,
    least::COMMAND,
    check::COMMAND,
    better::COMMAND,
    release::COMMAND,
    drift::COMMAND,
    list::COMMAND,
    run::COMMAND,
    gantt::COMMAND,
    levels::COMMAND,
    weight::COMMAND,
    compare::COMMAND,
    pack::COMMAND,
    show::COMMAND,
    generate::COMMAND,
];

/// The least width of the column of options in a help.
const NARROWEST: usize = 9;

/// What holds for every command.
const COMMON: &str = "\
SHEET and BUNDLE are files as bytes or as text; `-` is standard input. Where the text of a sheet
has the programmes too, BUNDLE may be left out. A file is written whole or not at all.

Exit status: 0 a result, or accepted; 1 refused, or a text in fault; 2 wrong usage, or a file that
cannot be read or written.
";

/// The help of the program.
pub fn summary() -> String {
    let mut text = String::from(
        "zeldrupa: plans, checks, steps and draws the work of a board of small processors.\n\n",
    );
    for command in &COMMANDS {
        text +=
            &format!("  zeldrupa {} {}\n      {}\n", command.name, command.usage, command.brief);
    }
    text + "  zeldrupa COMMAND --help, zeldrupa --version\n\n" + COMMON
}

impl Command {
    /// Its help.
    pub fn help(&self) -> String {
        let mut text = format!("zeldrupa {} {}\n\n{}\n", self.name, self.usage, self.full);
        if !self.options.is_empty() {
            text.push('\n');
        }
        let longest = self.options.iter().map(|(option, _)| option.len()).max();
        let width = longest.unwrap_or(0).max(NARROWEST);
        for (option, meaning) in self.options {
            text += &format!("  {option:<width$} {meaning}\n");
        }
        text + "\n" + COMMON
    }

    /// What its arguments are.
    pub fn takes(&self) -> &'static str {
        match self.usage.split_whitespace().next() {
            Some("FORMULA") => "formula",
            Some("SEED") => "seed",
            _ => "file",
        }
    }

    /// A fault of its usage.
    pub fn misused(&self, told: &str) -> Fault {
        let Command { name, usage, .. } = self;
        let line = format!("zeldrupa {name}: {told}\nusage: zeldrupa {name} {usage}");
        Fault::Usage(format!("{line}\nTry: zeldrupa {name} --help"))
    }
}

/// The refusal as the answer of a command that was asked for a verdict.
fn verdict(answer: Result<Answer, Fault>) -> Result<Answer, Fault> {
    match answer {
        Err(Fault::Refused(told)) => Ok(Answer::refusal(told)),
        other => other,
    }
}
