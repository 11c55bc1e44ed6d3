//! The bundle in a text: `processor`, `run`, `send`, `receive`, `release`, `discard` and `claim`.

use super::line::{Line, Placed, Problem, Task, MOST_PROBLEMS};
use super::names::Names;
use std::collections::HashMap;
use zeldrupa::{Command, Sheet};

/// The claimed time: a number, or the latest clock of the machine.
#[derive(Clone, Copy, Debug, PartialEq, Eq)]
pub enum Claim {
    At(u32),
    Auto,
}

/// A bundle as a text has it; which tasks and links it names is looked up in its sheet.
#[derive(Debug)]
pub struct BundleText {
    programmes: Vec<Vec<CommandLine>>,
    pub claim: Claim,
    /// The line of each command, those of the processors and the claim among them.
    pub lines: Vec<usize>,
}

#[derive(Debug)]
enum CommandLine {
    Task(fn(u8) -> Command, Placed<Task>),
    Message(fn(u16) -> Command, LinkWord),
}

/// A link as a text names it.
#[derive(Debug)]
enum LinkWord {
    Number(Placed<u32>),
    Ends([Placed<Task>; 2]),
}

/// The lines of a bundle so far.
#[derive(Debug, Default)]
pub struct BundleLines {
    programmes: Vec<Vec<CommandLine>>,
    claim: Option<Claim>,
    lines: Vec<usize>,
    /// Whether any line was a bundle's, right or not.
    begun: bool,
}

impl BundleLines {
    pub fn is_empty(&self) -> bool {
        !self.begun
    }

    /// Nothing of a bundle stands behind its claim.
    fn begin(&mut self, word: &Placed<usize>) -> Result<(), Problem> {
        self.begun = true;
        match self.claim {
            None => Ok(()),
            Some(_) => {
                Err(word.problem("the claim ends the bundle; expected nothing of it here".into()))
            }
        }
    }

    /// `processor 0`
    pub fn processor(&mut self, word: Placed<usize>, line: &mut Line) -> Result<(), Problem> {
        self.begin(&word)?;
        let next = self.programmes.len() as u32;
        let number = line.number("the processor", u32::MAX);
        self.programmes.push(Vec::new());
        self.lines.push(word.line);
        match number? {
            number if number == next => Ok(()),
            _ => {
                Err(word
                    .problem(format!("expected processor {next}: they count from 0 without a gap")))
            }
        }
    }

    /// `run window`
    pub fn task(
        &mut self,
        word: Placed<usize>,
        line: &mut Line,
        command: fn(u8) -> Command,
    ) -> Result<(), Problem> {
        let task = line.task();
        self.push(word, task.map(|task| CommandLine::Task(command, task)))
    }

    /// `send detrend -> window`, or by the link's number
    pub fn message(
        &mut self,
        word: Placed<usize>,
        line: &mut Line,
        command: fn(u16) -> Command,
    ) -> Result<(), Problem> {
        let link = match line.link_number() {
            Some(number) => Ok(LinkWord::Number(number)),
            None => line.ends().map(LinkWord::Ends),
        };
        self.push(word, link.map(|link| CommandLine::Message(command, link)))
    }

    fn push(
        &mut self,
        word: Placed<usize>,
        command: Result<CommandLine, Problem>,
    ) -> Result<(), Problem> {
        self.begin(&word)?;
        let Some(programme) = self.programmes.last_mut() else {
            return Err(word.problem("expected \"processor 0\" before the first command".into()));
        };
        programme.push(command?);
        self.lines.push(word.line);
        Ok(())
    }

    /// `claim 300` or `claim auto`
    pub fn claim(&mut self, word: Placed<usize>, line: &mut Line) -> Result<(), Problem> {
        self.begin(&word)?;
        let claim = match line.takes("auto") {
            true => Ok(Claim::Auto),
            false => line.number("the claim (or \"auto\")", u32::MAX).map(Claim::At),
        };
        self.claim = Some(*claim.as_ref().unwrap_or(&Claim::Auto));
        self.lines.push(word.line);
        claim.map(|_| ())
    }

    /// The bundle, if the text has one.
    pub fn end(self, last: usize, problems: &mut Vec<Problem>) -> Option<BundleText> {
        if !self.begun {
            return None;
        }
        // A claim that is in fault was told already.
        if self.claim.is_none() && problems.is_empty() {
            let told = "expected \"claim ..\" or \"claim auto\" behind this line";
            problems.push(Problem { line: last, column: 1, told: told.into() });
        }
        Some(BundleText { programmes: self.programmes, claim: self.claim?, lines: self.lines })
    }
}

impl BundleText {
    /// Whether it opens no programme, as only a bare board's may.
    pub fn is_bare(&self) -> bool {
        self.programmes.is_empty()
    }

    /// What cannot be told without the sheet: names, links by their ends, and the latest clock.
    pub fn needs_sheet(&self) -> Vec<Problem> {
        let mut problems = Vec::new();
        for line in self.programmes.iter().flatten() {
            match line {
                CommandLine::Task(_, task @ Placed { what: Task::Name(_), .. }) => {
                    problems.push(task.problem("a name needs the sheet: give --sheet".into()));
                }
                CommandLine::Message(_, LinkWord::Ends([source, _])) => {
                    let told = "a link by its tasks needs the sheet: give --sheet, or its number";
                    problems.push(source.problem(told.into()));
                }
                _ => (),
            }
        }
        if let (Claim::Auto, Some(&line)) = (self.claim, self.lines.last()) {
            let told = "claim auto needs the sheet: give --sheet".into();
            problems.push(Problem { line, column: 1, told });
        }
        problems
    }

    /// The programmes with the sheet's numbers.
    pub fn programmes(
        &self,
        sheet: &Sheet,
        names: &Names,
    ) -> Result<Vec<Vec<Command>>, Vec<Problem>> {
        let lookup = Lookup {
            names,
            count: sheet.links().len(),
            links: (0..)
                .zip(sheet.links())
                .map(|(number, link)| ([link.source, link.target].map(usize::from), number))
                .collect(),
        };
        let mut problems = Vec::new();
        let mut programmes = Vec::new();
        for programme in &self.programmes {
            let mut commands = Vec::new();
            for line in programme {
                match lookup.command(line) {
                    Ok(command) => commands.push(command),
                    Err(_) if problems.len() >= MOST_PROBLEMS => return Err(problems),
                    Err(problem) => problems.push(problem),
                }
            }
            programmes.push(commands);
        }
        match problems.is_empty() {
            true => Ok(programmes),
            false => Err(problems),
        }
    }
}

/// The names and the links of a sheet.
struct Lookup<'a> {
    names: &'a Names,
    count: usize,
    links: HashMap<[usize; 2], u16>,
}

impl Lookup<'_> {
    fn command(&self, line: &CommandLine) -> Result<Command, Problem> {
        Ok(match line {
            CommandLine::Task(command, task) => command(self.names.find(task)? as u8),
            CommandLine::Message(command, LinkWord::Number(number)) => {
                let known = u16::try_from(number.what).ok();
                let known = known.filter(|&link| usize::from(link) < self.count);
                command(known.ok_or_else(|| {
                    let (link, count) = (number.what, self.count);
                    number.problem(format!("no link {link}; the sheet has {count} links"))
                })?)
            }
            CommandLine::Message(command, LinkWord::Ends(ends)) => command(self.link(ends)?),
        })
    }

    fn link(&self, ends: &[Placed<Task>; 2]) -> Result<u16, Problem> {
        let [source, target] = [self.names.find(&ends[0])?, self.names.find(&ends[1])?];
        self.links.get(&[source, target]).copied().ok_or_else(|| {
            let [from, to] = [source, target].map(|task| self.names.shown(task));
            let turned = match self.links.contains_key(&[target, source]) {
                true => format!("; there is one {to} -> {from}"),
                false => String::new(),
            };
            ends[0].problem(format!("no link {from} -> {to}{turned}"))
        })
    }
}
