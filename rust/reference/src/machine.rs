//! The stepping machine: processors with clocks, messages with stamps, one command a step.

use crate::bundle::{commands, Bundle, Command};
use crate::messages::{self, Seats};
use crate::refusal::Refusal;
use crate::sheet::Sheet;

/// A processor at some point of its programme.
#[derive(Clone, Copy, Debug)]
pub struct Processor<'a> {
    pub clock: u32,
    /// The commands of its programme that are done.
    pub position: usize,
    /// The store in use.
    pub store: u32,
    /// The commands of its programme that are left.
    rest: &'a [u8],
}

impl Processor<'_> {
    /// Whether commands are left.
    pub fn unfinished(&self) -> bool {
        !self.rest.is_empty()
    }
}

/// What a chosen processor did.
#[derive(Clone, Copy, Debug, PartialEq, Eq)]
pub enum Step {
    Ran(u16),
    Sent(u16),
    Received(u16),
    Released(u16),
    Discarded(u16),
    /// Nothing: the message of this link has not been sent.
    Waits(u16),
    /// Nothing: its programme has no command left, or there is no such programme.
    Ended,
}

impl Step {
    /// Whether a command was done.
    pub fn stepped(self) -> bool {
        !matches!(self, Step::Waits(_) | Step::Ended)
    }
}

/// A sheet's bundle being run.
#[derive(Clone, Debug)]
pub struct Machine<'a> {
    sheet: &'a Sheet,
    /// The claimed time of the bundle.
    pub claim: u32,
    processors: Vec<Processor<'a>>,
    stamps: Vec<Option<u32>>,
    /// The hops of each link's message; none where every message makes one.
    hops: Vec<u8>,
}

impl<'a> Machine<'a> {
    /// The fresh machine for a bundle (21 to 26, 31 to 33, 37 and 28).
    pub fn start(sheet: &'a Sheet, bundle: &'a [u8]) -> Result<Machine<'a>, Refusal> {
        let (bundle, seats) = messages::read(sheet, bundle)?;
        Ok(Machine::fresh(sheet, &bundle, &seats))
    }

    /// The fresh machine for a bundle that is right so far, of which the seats are known.
    pub fn fresh(sheet: &'a Sheet, bundle: &Bundle<'a>, seats: &Seats) -> Machine<'a> {
        let fresh = |&rest: &&'a [u8]| Processor { clock: 0, position: 0, store: 0, rest };
        Machine {
            sheet,
            claim: bundle.claim,
            processors: bundle.programmes().iter().map(fresh).collect(),
            stamps: vec![None; sheet.links.len()],
            hops: seats.hops(sheet),
        }
    }

    /// Does the next command of the chosen processor, if it can step.
    pub fn step(&mut self, choice: u64) -> Step {
        let number = usize::try_from(choice).unwrap_or(usize::MAX);
        let Some(processor) = self.processors.get_mut(number) else {
            return Step::Ended;
        };
        let Some((command, rest)) = Command::split(processor.rest) else {
            return Step::Ended;
        };
        let step = match command {
            Command::Open(_) => unreachable!("a programme holds no command that opens one"),
            Command::Run(task) => {
                let run = &self.sheet.tasks[usize::from(task)];
                processor.clock += u32::from(run.work);
                processor.store += u32::from(run.store);
                Step::Ran(task)
            }
            Command::Send(link) => {
                let cost = u32::from(self.sheet.links[usize::from(link)].cost);
                let hops = self.hops.get(usize::from(link));
                let time = hops.map_or(cost, |&hops| cost * u32::from(hops));
                self.stamps[usize::from(link)] = Some(processor.clock + time);
                Step::Sent(link)
            }
            Command::Receive(link) => {
                let Some(stamp) = self.stamps[usize::from(link)] else {
                    return Step::Waits(link);
                };
                processor.clock = processor.clock.max(stamp) + u32::from(self.sheet.unpacking);
                processor.store += u32::from(self.sheet.links[usize::from(link)].bytes);
                Step::Received(link)
            }
            Command::Release(task) => {
                processor.store -= u32::from(self.sheet.tasks[usize::from(task)].store);
                Step::Released(task)
            }
            Command::Discard(link) => {
                processor.store -= u32::from(self.sheet.links[usize::from(link)].bytes);
                Step::Discarded(link)
            }
        };
        processor.position += 1;
        processor.rest = rest;
        step
    }

    /// The processors, one for each programme.
    pub fn processors(&self) -> &[Processor<'a>] {
        &self.processors
    }

    /// How many processors have a task left to run.
    pub fn runners(&self) -> usize {
        let runs = |rest| commands(rest).any(|command| matches!(command, Command::Run(_)));
        self.processors.iter().filter(|processor| runs(processor.rest)).count()
    }

    /// How many links there are.
    pub fn links(&self) -> usize {
        self.stamps.len()
    }

    /// The stamp of a link's message, once it has been sent.
    pub fn stamp(&self, link: usize) -> Option<u32> {
        self.stamps.get(link).copied().flatten()
    }

    /// The commands still to do.
    pub fn left(&self) -> usize {
        self.processors.iter().map(|processor| commands(processor.rest).count()).sum()
    }

    /// The latest clock, 0 without programmes.
    pub fn latest_clock(&self) -> u32 {
        self.processors.iter().map(|processor| processor.clock).max().unwrap_or(0)
    }
}
