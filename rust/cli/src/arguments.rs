//! The arguments of a command: files and options.

use crate::answer::Fault;
use crate::commands::Command;
use std::ffi::{OsStr, OsString};
use std::path::PathBuf;

/// The files and options that a command was given.
#[derive(Debug, Default)]
pub struct Arguments {
    pub files: Vec<PathBuf>,
    options: Vec<(&'static str, OsString)>,
}

impl Arguments {
    /// The arguments as the command takes them; none if its help is asked for.
    pub fn read(command: &Command, given: &[OsString]) -> Result<Option<Self>, Fault> {
        let mut arguments = Arguments::default();
        let mut given = given.iter();
        let mut only_files = false;
        while let Some(argument) = given.next() {
            let text = argument.to_string_lossy();
            if only_files || text == "-" || !text.starts_with('-') {
                arguments.files.push(argument.into());
                continue;
            }
            match text.as_ref() {
                "-h" | "--help" => return Ok(None),
                "--" => only_files = true,
                _ => arguments.option(command, argument, &mut given)?,
            }
        }
        let count = arguments.files.len();
        if !command.files.contains(&count) {
            let (least, most) = command.files.clone().into_inner();
            let what = command.takes();
            let takes = match (least, most) {
                (1, 1) => format!("1 {what}"),
                _ if least == most => format!("{least} {what}s"),
                _ => format!("{least} to {most} {what}s"),
            };
            return Err(command.misused(&format!("takes {takes}, not {count}")));
        }
        Ok(Some(arguments))
    }

    /// Reads one option, and its value behind it or behind `=`.
    fn option<'a>(
        &mut self,
        command: &Command,
        argument: &OsStr,
        rest: &mut impl Iterator<Item = &'a OsString>,
    ) -> Result<(), Fault> {
        let text = argument.to_string_lossy();
        let (name, joined) = match text.split_once('=') {
            Some((name, value)) => (name.to_string(), Some(OsString::from(value))),
            None => (text.to_string(), None),
        };
        let Some(&(option, _)) = command.options.iter().find(|(option, _)| *option == name) else {
            let options = command.options.iter().map(|(option, _)| *option);
            let meant = crate::text::meant(&name, options);
            return Err(command.misused(&format!("has no option {name}{meant}")));
        };
        if self.options.iter().any(|(given, _)| *given == option) {
            return Err(command.misused(&format!("takes {option} once")));
        }
        let value = joined.or_else(|| rest.next().cloned());
        let value = value.ok_or_else(|| command.misused(&format!("needs a value for {option}")))?;
        self.options.push((option, value));
        Ok(())
    }

    /// The value of an option.
    pub fn value(&self, option: &str) -> Option<&OsStr> {
        let found = self.options.iter().find(|(given, _)| *given == option);
        found.map(|(_, value)| value.as_os_str())
    }

    /// The value of an option that names a file.
    pub fn file(&self, option: &str) -> Option<PathBuf> {
        self.value(option).map(PathBuf::from)
    }

    /// The value of an option as text.
    pub fn text(&self, option: &str) -> Option<String> {
        self.value(option).map(|value| value.to_string_lossy().into_owned())
    }
}
