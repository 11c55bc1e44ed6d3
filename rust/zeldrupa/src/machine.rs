//! The stepping machine: a sheet's bundle being run, one command of one chosen processor at a time.

use crate::{raw, Bundle, Command, Refusal, Sheet, WorkArea};

/// A processor at some point of its programme.
#[derive(Clone, Copy, Debug, PartialEq, Eq, Hash)]
pub struct Processor {
    /// Its clock.
    pub clock: u32,
    /// How many commands of its programme are done.
    pub position: u32,
    /// The store in use.
    pub store: u32,
}

/// What a processor that cannot step waits for.
#[derive(Clone, Copy, Debug, PartialEq, Eq, Hash)]
pub struct Wait {
    /// The processor that waits.
    pub processor: usize,
    /// The position of its receive in its programme.
    pub position: usize,
    /// The link whose message is not sent yet.
    pub link: u16,
    /// The processor that has to send it.
    pub sender: usize,
    /// The position of that send in the sender's programme.
    pub send: usize,
}

/// A started machine; [`WorkArea::start`] makes one.
///
/// ```
/// use zeldrupa::{Processor, WorkArea};
///
/// # fn main() -> Result<(), zeldrupa::Refusal> {
/// let mut work = WorkArea::new();
/// let sheet = work.read_sheet(include_bytes!("../../../examples/k1.sheet"))?;
/// let bundle = work.plan(&sheet)?;
/// let mut machine = work.start(&sheet, &bundle)?;
/// // Processor 0 runs task 3, sends to processor 1, and then waits for task 0 on processor 1.
/// assert!(machine.step(0) && machine.step(0) && !machine.step(0));
/// assert_eq!(machine.stamp(0), Some(3));
/// assert_eq!(machine.processor(0), Some(Processor { clock: 2, position: 2, store: 10 }));
/// assert_eq!(machine.left(), 6);
/// // The same machine from the start again, with all choices in one call.
/// assert_eq!(machine.run(&mut work, &[1, 1, 0, 0, 0, 0, 1, 1]), 8);
/// assert_eq!((machine.left(), machine.latest_clock()), (0, bundle.claim()));
/// # Ok(())
/// # }
/// ```
#[derive(Clone, Debug)]
pub struct Machine<'a> {
    sheet: &'a Sheet,
    bundle: &'a Bundle,
    state: Vec<u32>,
}

impl<'a> Machine<'a> {
    /// The fresh machine (13, 1 to 8, 10, 21 to 26, 31 to 33, 37, 28).
    pub(crate) fn start(
        work: &mut [u32],
        sheet: &'a Sheet,
        bundle: &'a Bundle,
    ) -> Result<Machine<'a>, Refusal> {
        let mut state = vec![0; work.len()];
        Refusal::of(raw::start(sheet.bytes(), bundle.bytes(), work, &mut state))?;
        Ok(Machine { sheet, bundle, state })
    }

    /// Does the next command of the chosen processor. False, and nothing changes, if that processor
    /// cannot step or has no programme.
    pub fn step(&mut self, choice: u64) -> bool {
        result(raw::step(self.sheet.bytes(), self.bundle.bytes(), &mut self.state, choice)) == 1
    }

    /// Starts again and makes these choices; how many of them stepped.
    pub fn run(&mut self, work: &mut WorkArea, choices: &[u8]) -> u64 {
        let (sheet, bundle) = (self.sheet.bytes(), self.bundle.bytes());
        result(raw::run(sheet, bundle, choices, work.words(), &mut self.state))
    }

    /// Steps until nobody can; by demand 3 all orders end alike.
    pub fn run_out(&mut self) {
        let programmes = self.bundle.programmes().len() as u64;
        while (0..programmes).filter(|&k| self.step(k)).count() > 0 {}
    }

    /// The next command of a processor, if one is left.
    pub fn next(&self, k: usize) -> Option<Command> {
        let position = self.processor(k)?.position as usize;
        self.bundle.programmes()[k].get(position).copied()
    }

    /// What a processor waits for, if its next command is a receive whose message is not sent.
    pub fn waits(&self, k: usize) -> Option<Wait> {
        let Some(Command::Receive(link)) = self.next(k) else { return None };
        if self.stamp(link.into()).is_some() {
            return None;
        }
        let position = self.processor(k)?.position as usize;
        let sends = |programme: &Vec<Command>| {
            programme.iter().position(|&command| command == Command::Send(link))
        };
        let mut programmes = self.bundle.programmes().iter().enumerate();
        let found = programmes.find_map(|(sender, programme)| Some((sender, sends(programme)?)));
        found.map(|(sender, send)| Wait { processor: k, position, link, sender, send })
    }

    /// The circle of processors that wait for each other, from its lowest one on, each behind the
    /// one that waits for it; empty unless the machine is stuck.
    pub fn circle(&self) -> Vec<Wait> {
        let mut path: Vec<Wait> = Vec::new();
        let mut next = (0..self.bundle.programmes().len()).find_map(|k| self.waits(k));
        while let Some(wait) = next {
            if let Some(start) = path.iter().position(|seen| seen.processor == wait.processor) {
                let mut circle = path.split_off(start);
                let lowest = (0..circle.len()).min_by_key(|&at| circle[at].processor);
                circle.rotate_left(lowest.unwrap_or(0));
                return circle;
            }
            path.push(wait);
            next = self.waits(wait.sender);
        }
        Vec::new()
    }

    /// How many commands are still to do.
    pub fn left(&self) -> u64 {
        result(raw::left(self.bundle.bytes(), &self.state))
    }

    /// A processor, if it has a programme.
    pub fn processor(&self, k: usize) -> Option<Processor> {
        let mut numbers = [0; 3];
        (k < self.bundle.programmes().len()).then(|| {
            result(raw::processor(self.bundle.bytes(), &self.state, k as u64, &mut numbers));
            let [clock, position, store] = numbers;
            Processor { clock, position, store }
        })
    }

    /// The processors that have a programme, in number order.
    pub fn processors(&self) -> impl Iterator<Item = Processor> + '_ {
        (0..).map_while(|k| self.processor(k))
    }

    /// The greatest of all clocks, 0 without programmes.
    pub fn latest_clock(&self) -> u32 {
        self.processors().map(|processor| processor.clock).max().unwrap_or(0)
    }

    /// The stamp of a link's message, once it has been sent.
    pub fn stamp(&self, link: u64) -> Option<u64> {
        result(raw::stamp(&self.state, link)).checked_sub(1)
    }
}

/// The place of a call that cannot be refused: the areas have the fixed length, and what started
/// once starts again.
fn result(answer: raw::Answer) -> u64 {
    Refusal::of(answer).expect("the machine has started")
}
