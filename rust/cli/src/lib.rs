//! The tool `zeldrupa`: sheets and bundles as bytes or as text, planned, checked, stepped, shown and
//! drawn. Every answer is the proved library's, through the crate `zeldrupa`; this crate reads and
//! writes files, texts and pictures, and nothing is proved of it.

mod answer;
mod arguments;
mod commands;
mod files;
mod loader;
mod picture;
mod refusing;
mod table;
pub mod text;
mod trace;

use answer::{Answer, Fault};
use arguments::Arguments;
use commands::{Command, COMMANDS};
use loader::Loader;
use std::ffi::OsString;
use std::io::{stderr, stdout, Write};

/// Runs the tool on its arguments; the exit status.
pub fn main(arguments: Vec<OsString>) -> u8 {
    let written = answer(arguments).and_then(|answer| {
        files::write(answer.file.as_deref(), &answer.bytes)?;
        Ok(answer)
    });
    let (complaint, status) = match written {
        Ok(answer) => (answer.complaint, u8::from(!answer.accepted)),
        Err(fault) => (fault.to_string(), fault.status()),
    };
    if !complaint.is_empty() {
        // Where standard error is shut too, the status alone is left to tell it.
        let _ = writeln!(stderr(), "{}", complaint.trim_end());
    }
    let _ = stdout().flush();
    status
}

/// What the arguments ask for.
fn answer(arguments: Vec<OsString>) -> Result<Answer, Fault> {
    let Some((first, rest)) = arguments.split_first() else {
        return Err(Fault::Usage(commands::summary()));
    };
    match first.to_string_lossy().as_ref() {
        "-h" | "--help" => Ok(Answer::text(commands::summary())),
        "help" => match rest.first() {
            None => Ok(Answer::text(commands::summary())),
            Some(name) => Ok(Answer::text(named(&name.to_string_lossy())?.help())),
        },
        "-V" | "--version" => Ok(Answer::text(format!("zeldrupa {}\n", env!("CARGO_PKG_VERSION")))),
        name => {
            let command = named(name)?;
            match Arguments::read(command, rest)? {
                None => Ok(Answer::text(command.help())),
                Some(arguments) => (command.answer)(&mut Loader::new(), &arguments),
            }
        }
    }
}

/// The command of this name.
fn named(name: &str) -> Result<&'static Command, Fault> {
    COMMANDS.iter().find(|command| command.name == name).ok_or_else(|| {
        let names = COMMANDS.iter().map(|command| command.name);
        let meant = text::meant(name, names);
        Fault::Usage(format!("zeldrupa: no command \"{name}\"{meant}\nTry: zeldrupa --help"))
    })
}
