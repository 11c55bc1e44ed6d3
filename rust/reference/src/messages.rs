//! What stands where in a bundle: each task run once (26), each message right (31 to 33), each release
//! right (37), store kept (28), and on a cube how far each message goes.

use crate::bundle::{commands, Bundle, Command};
use crate::refusal::*;
use crate::sheet::{Link, Sheet, MOST_PROCESSORS};
use std::mem;

/// Reads a bundle in which 21 to 26, 31 to 33, 37 and 28 do not apply, and gives where its commands
/// stand.
pub fn read<'a>(sheet: &Sheet, bytes: &'a [u8]) -> Result<(Bundle<'a>, Seats), Refusal> {
    let tasks = sheet.tasks.len();
    let mut seats = Seats {
        runs: vec![Seat::default(); tasks],
        sends: vec![Seat::default(); sheet.links.len()],
        receives: vec![Seat::default(); sheet.links.len()],
        releases: Vec::new(),
    };
    let bundle = Bundle::read_with(sheet, bytes, |programme, at, command| match command {
        Command::Open(_) => (),
        Command::Run(task) => seats.runs[usize::from(task)].take(programme, at),
        Command::Send(link) => seats.sends[usize::from(link)].take(programme, at),
        Command::Receive(link) => seats.receives[usize::from(link)].take(programme, at),
        Command::Release(task) => seats.release(task.into(), programme, at),
        Command::Discard(link) => seats.release(tasks + usize::from(link), programme, at),
    })?;
    seats.judge(sheet, &bundle)?;
    Ok((bundle, seats))
}

/// How often a command stands in a bundle, and where it does last.
#[derive(Clone, Copy, Default)]
pub struct Seat {
    /// 2 stands for more than one.
    times: u8,
    programme: u8,
    pub offset: usize,
}

impl Seat {
    fn take(&mut self, programme: usize, offset: usize) {
        *self = Seat { times: (self.times + 1).min(2), programme: programme as u8, offset };
    }

    /// Whether there is such a command.
    pub fn is_taken(&self) -> bool {
        self.times > 0
    }

    /// Whether this stands in the other's programme, and before it.
    fn before(&self, other: &Seat) -> bool {
        self.programme == other.programme && self.offset < other.offset
    }
}

/// The seats of every task's run and every link's messages.
pub struct Seats {
    runs: Vec<Seat>,
    sends: Vec<Seat>,
    receives: Vec<Seat>,
    /// The releases in the order of the bytes, each with its thing: a task's result has the task's
    /// number, and behind all tasks come the links' messages.
    releases: Vec<(usize, Seat)>,
}

impl Seats {
    fn release(&mut self, thing: usize, programme: usize, offset: usize) {
        self.releases.push((thing, Seat { times: 1, programme: programme as u8, offset }));
    }

    /// 26, 31 to 33, 37 and 28.
    fn judge(&self, sheet: &Sheet, bundle: &Bundle) -> Result<(), Refusal> {
        if let Some(task) = self.runs.iter().position(|run| run.times != 1) {
            return Err(Refusal::new(RUN_COUNT, task));
        }
        for (number, link) in sheet.links.iter().enumerate() {
            if let Some(fault) = self.message_fault(number, link) {
                return Err(Refusal::new(fault, number));
            }
        }
        let need = match self.has_releases() {
            false => self.stores(sheet),
            true => {
                self.judge_releases(sheet)?;
                highest(sheet, bundle)
            }
        };
        match need.iter().position(|&store| store > sheet.limit) {
            Some(processor) => Err(Refusal::new(OVER_STORE, processor)),
            None => Ok(()),
        }
    }

    /// Which end of a link does not fit the runs of its two tasks: the send first, then the receive,
    /// then the order inside one processor.
    fn message_fault(&self, number: usize, link: &Link) -> Option<u8> {
        let source = &self.runs[usize::from(link.source)];
        let target = &self.runs[usize::from(link.target)];
        let (send, receive) = (&self.sends[number], &self.receives[number]);
        if source.programme == target.programme {
            return match (send.times, receive.times, source.before(target)) {
                (0, 0, true) => None,
                (0, 0, false) => Some(LOCAL_ORDER),
                (0, _, _) => Some(WRONG_RECEIVE),
                _ => Some(WRONG_SEND),
            };
        }
        if send.times != 1 || !source.before(send) {
            return Some(WRONG_SEND);
        }
        (receive.times != 1 || !receive.before(target)).then_some(WRONG_RECEIVE)
    }

    /// The bits in which the processors of each link's two tasks differ, on a cube; on another board they
    /// are left out, since every message makes one hop.
    pub fn hops(&self, sheet: &Sheet) -> Vec<u8> {
        let programme = |task: u8| self.runs[usize::from(task)].programme;
        let bits = |link: &Link| programme(link.source) ^ programme(link.target);
        match sheet.cube {
            true => sheet.links.iter().map(|link| bits(link).count_ones() as u8).collect(),
            false => Vec::new(),
        }
    }

    /// Whether anything is released.
    pub fn has_releases(&self) -> bool {
        !self.releases.is_empty()
    }

    /// The last command that gets or uses each thing, in the order of their numbers, where 26 and 31 to
    /// 33 do not apply: of a result its run, the local runs that read it and its sends; of a message
    /// the run of its target. A link without a message has none.
    pub fn last_uses(&self, sheet: &Sheet) -> Vec<Seat> {
        let mut last = self.runs.clone();
        last.reserve(sheet.links.len());
        for (link, send) in sheet.links.iter().zip(&self.sends) {
            let target = self.runs[usize::from(link.target)];
            let (used, message) = match send.is_taken() {
                true => (*send, target),
                false => (target, Seat::default()),
            };
            let result = &mut last[usize::from(link.source)];
            if result.before(&used) {
                *result = used;
            }
            last.push(message);
        }
        last
    }

    /// The first release of what is not held there, or is used behind it (37).
    fn judge_releases(&self, sheet: &Sheet) -> Result<(), Refusal> {
        let mut last = self.last_uses(sheet);
        for (thing, release) in &self.releases {
            // What is released is held no more, so that of two the second is wrong.
            let used = mem::take(&mut last[*thing]);
            if !used.is_taken() || !used.before(release) {
                return Err(Refusal::new(WRONG_RELEASE, release.offset));
            }
        }
        Ok(())
    }

    /// The store that each programme needs without releases, where 26 and 31 to 33 do not apply.
    fn stores(&self, sheet: &Sheet) -> [u32; MOST_PROCESSORS] {
        let mut need = [0; MOST_PROCESSORS];
        for (run, task) in self.runs.iter().zip(&sheet.tasks) {
            need[usize::from(run.programme)] += u32::from(task.store);
        }
        for (receive, link) in self.receives.iter().zip(&sheet.links) {
            if receive.times > 0 {
                need[usize::from(receive.programme)] += u32::from(link.bytes);
            }
        }
        need
    }
}

/// The highest store in use of each programme behind any of its commands, where 37 does not apply.
fn highest(sheet: &Sheet, bundle: &Bundle) -> [u32; MOST_PROCESSORS] {
    let mut need = [0; MOST_PROCESSORS];
    for (need, programme) in need.iter_mut().zip(bundle.programmes()) {
        let mut store = 0;
        for command in commands(programme) {
            match command {
                Command::Run(task) => store += u32::from(sheet.tasks[usize::from(task)].store),
                Command::Receive(link) => store += u32::from(sheet.links[usize::from(link)].bytes),
                Command::Release(task) => store -= u32::from(sheet.tasks[usize::from(task)].store),
                Command::Discard(link) => store -= u32::from(sheet.links[usize::from(link)].bytes),
                Command::Open(_) | Command::Send(_) => (),
            }
            *need = store.max(*need);
        }
    }
    need
}
