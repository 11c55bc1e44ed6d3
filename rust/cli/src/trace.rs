//! What the machine did, command by command: all numbers are those that the library's machine gives.

use zeldrupa::{Command, Machine, Wait};

/// A command that was done.
#[derive(Clone, Copy, Debug)]
pub struct Event {
    pub processor: usize,
    pub command: Command,
    /// The clock before and behind it.
    pub start: u32,
    pub finish: u32,
    /// The store in use behind it.
    pub store: u32,
    /// The stamp of the message that it sent or received.
    pub stamp: Option<u64>,
}

impl Event {
    /// When a receive has its message, waited for or not; of other commands, when they begin.
    pub fn has_message(&self) -> u32 {
        match (self.command, self.stamp) {
            (Command::Receive(_), Some(stamp)) => self.start.max(stamp as u32),
            _ => self.start,
        }
    }

    /// How long a receive waited.
    pub fn waited(&self) -> u32 {
        self.has_message() - self.start
    }

    /// How long a receive unpacked.
    pub fn unpacked(&self) -> u32 {
        match self.command {
            Command::Receive(_) => self.finish - self.has_message(),
            _ => 0,
        }
    }

    /// Whether it gave store back.
    pub fn gives_back(&self) -> bool {
        matches!(self.command, Command::Release(_) | Command::Discard(_))
    }
}

/// Chooses a processor; what it did, if the machine stepped.
pub fn step(machine: &mut Machine, choice: u64) -> Option<Event> {
    let processor = usize::try_from(choice).unwrap_or(usize::MAX);
    let (command, before) = (machine.next(processor), machine.processor(processor));
    if !machine.step(choice) {
        return None;
    }
    let (command, start) = (command?, before?.clock);
    let after = machine.processor(processor)?;
    let stamp = match command {
        Command::Send(link) | Command::Receive(link) => machine.stamp(link.into()),
        Command::Run(_) | Command::Release(_) | Command::Discard(_) => None,
    };
    Some(Event { processor, command, start, finish: after.clock, store: after.store, stamp })
}

/// A machine that ran until nobody could step.
pub struct Trace {
    /// What was done, each processor's commands in their order.
    pub events: Vec<Event>,
    /// How many processors have a programme.
    pub processors: usize,
    pub latest: u32,
    /// What each processor still waits for, if it is stuck.
    pub waits: Vec<Wait>,
    /// The circle of those that wait for each other.
    pub circle: Vec<Wait>,
}

impl Trace {
    /// Runs a machine to its end.
    pub fn of(mut machine: Machine) -> Self {
        let processors = machine.processors().count();
        let mut events = Vec::new();
        loop {
            let before = events.len();
            for processor in 0..processors {
                while let Some(event) = step(&mut machine, processor as u64) {
                    events.push(event);
                }
            }
            if events.len() == before {
                break;
            }
        }
        let waits = (0..processors).filter_map(|processor| machine.waits(processor)).collect();
        let (latest, circle) = (machine.latest_clock(), machine.circle());
        Trace { events, processors, latest, waits, circle }
    }

    /// What a processor did.
    pub fn of_processor(&self, processor: usize) -> impl Iterator<Item = &Event> {
        self.events.iter().filter(move |event| event.processor == processor)
    }

    /// The highest store in use of a processor.
    pub fn highest_store(&self, processor: usize) -> u32 {
        self.of_processor(processor).map(|event| event.store).max().unwrap_or(0)
    }

    /// Where and when each task ran, as far as they did, in number order.
    pub fn runs(&self) -> Vec<Ran> {
        let mut runs = Vec::new();
        for processor in 0..self.processors {
            let (mut waited, mut unpacked) = (0, 0);
            for event in self.of_processor(processor) {
                waited += event.waited();
                unpacked += event.unpacked();
                if let Command::Run(task) = event.command {
                    let (task, start, finish) = (task.into(), event.start, event.finish);
                    runs.push(Ran { task, processor, start, finish, waited, unpacked });
                    (waited, unpacked) = (0, 0);
                }
            }
        }
        runs.sort_by_key(|run| run.task);
        runs
    }
}

/// A task that ran, and how long its processor waited for messages and unpacked directly before it.
#[derive(Clone, Copy, Debug, PartialEq, Eq)]
pub struct Ran {
    pub task: usize,
    pub processor: usize,
    pub start: u32,
    pub finish: u32,
    pub waited: u32,
    pub unpacked: u32,
}
