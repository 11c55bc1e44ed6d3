//! The least time for small sheets: every arrangement of the tasks in programmes is tried, and the best of
//! those that are accepted is kept.

use crate::bundle::{write_claim, Command};
use crate::refusal::{Refusal, NOT_SMALL, NO_STORE};
use crate::sheet::Sheet;

/// The most tasks of a sheet that is small.
pub const MOST_ARRANGED: usize = 6;

/// The best bundle in the planner's written form: the least claim, then fewest programmes, then the lowest
/// bytes (38, 11).
pub fn least(sheet: &Sheet) -> Result<Vec<u8>, Refusal> {
    let tasks = sheet.tasks.len();
    if tasks > MOST_ARRANGED || sheet.cube {
        return Err(Refusal::new(NOT_SMALL, tasks));
    }
    let mut search = Search { sheet, programmes: Vec::new(), best: None };
    search.arrange(&(0..tasks).collect::<Vec<_>>());
    search.best.map(|best| best.bytes).ok_or_else(|| Refusal::new(NO_STORE, tasks - 1))
}

/// What an arrangement is compared by: less is better.
#[derive(PartialEq, Eq, PartialOrd, Ord)]
struct Rank {
    claim: u32,
    programmes: usize,
    bytes: Vec<u8>,
}

/// The search so far.
struct Search<'a> {
    sheet: &'a Sheet,
    /// The arrangement that is being made: tasks by programme, none of which is empty.
    programmes: Vec<Vec<usize>>,
    best: Option<Rank>,
}

impl Search<'_> {
    /// Tries every way to go on with the tasks that are left, each in a new programme or behind the last
    /// task.
    fn arrange(&mut self, left: &[usize]) {
        if left.is_empty() {
            return self.consider();
        }
        for &task in left {
            let rest: Vec<usize> = left.iter().copied().filter(|&other| other != task).collect();
            if self.programmes.len() < self.sheet.processors.into() {
                self.programmes.push(vec![task]);
                self.arrange(&rest);
                self.programmes.pop();
            }
            if let Some(last) = self.programmes.len().checked_sub(1) {
                self.programmes[last].push(task);
                self.arrange(&rest);
                self.programmes[last].pop();
            }
        }
    }

    /// Keeps the arrangement if it is accepted and better than the best so far. Its bytes are written only
    /// where nothing else tells them apart.
    fn consider(&mut self) {
        let Some(claim) = self.claim() else { return };
        let programmes = self.programmes.len();
        let best = self.best.as_ref();
        if best.is_some_and(|best| (best.claim, best.programmes) < (claim, programmes)) {
            return;
        }
        let rank = Rank { claim, programmes, bytes: self.bundle(claim) };
        if best.is_none_or(|best| rank < *best) {
            self.best = Some(rank);
        }
    }

    /// The programme in which each task stands.
    fn homes(&self) -> [usize; MOST_ARRANGED] {
        let mut homes = [0; MOST_ARRANGED];
        for (k, programme) in self.programmes.iter().enumerate() {
            programme.iter().for_each(|&task| homes[task] = k);
        }
        homes
    }

    /// The time at which the last programme ends; none if one needs more store than there is, or if tasks
    /// wait for each other.
    fn claim(&self) -> Option<u32> {
        let homes = self.homes();
        if self.needs(&homes).into_iter().any(|need| need > self.sheet.limit) {
            return None;
        }
        let mut finishes = [None; MOST_ARRANGED];
        let (mut clocks, mut done) = ([0; MOST_ARRANGED], [0; MOST_ARRANGED]);
        let mut waiting = self.sheet.tasks.len();
        loop {
            let before = waiting;
            for (k, programme) in self.programmes.iter().enumerate() {
                // Each goes on as far as the messages for its next task are there.
                while let Some(&task) = programme.get(done[k]) {
                    let Some(start) = self.start(task, clocks[k], &homes, &finishes) else { break };
                    clocks[k] = start + u32::from(self.sheet.tasks[task].work);
                    finishes[task] = Some(clocks[k]);
                    done[k] += 1;
                    waiting -= 1;
                }
            }
            if waiting == 0 {
                return Some(clocks.into_iter().max().unwrap_or(0));
            }
            if waiting == before {
                return None;
            }
        }
    }

    /// When a task starts on a processor with this clock: behind its receives in rising link number. None
    /// while a task before it has not finished.
    fn start(
        &self,
        task: usize,
        mut clock: u32,
        homes: &[usize; MOST_ARRANGED],
        finishes: &[Option<u32>; MOST_ARRANGED],
    ) -> Option<u32> {
        for link in self.sheet.links.iter().filter(|link| usize::from(link.target) == task) {
            let source = usize::from(link.source);
            let finish = finishes[source]?;
            if homes[source] != homes[task] {
                let there = finish + u32::from(link.cost);
                clock = clock.max(there) + u32::from(self.sheet.unpacking);
            }
        }
        Some(clock)
    }

    /// The store that each programme needs: of its tasks and of the messages to them.
    fn needs(&self, homes: &[usize; MOST_ARRANGED]) -> [u32; MOST_ARRANGED] {
        let mut needs = [0; MOST_ARRANGED];
        for (task, &home) in self.sheet.tasks.iter().zip(homes) {
            needs[home] += u32::from(task.store);
        }
        for link in &self.sheet.links {
            let [from, to] = [link.source, link.target].map(|task| homes[usize::from(task)]);
            needs[to] += if from == to { 0 } else { u32::from(link.bytes) };
        }
        needs
    }

    /// The bundle of the arrangement: each task behind its receives and before its sends.
    fn bundle(&self, claim: u32) -> Vec<u8> {
        let homes = self.homes();
        let mut bundle = Vec::new();
        for (k, programme) in self.programmes.iter().enumerate() {
            Command::Open(k as u16).write(&mut bundle);
            for &task in programme {
                let messages = || {
                    (0..).zip(&self.sheet.links).filter(|(_, link)| {
                        homes[usize::from(link.source)] != homes[usize::from(link.target)]
                    })
                };
                let into = messages().filter(|(_, link)| usize::from(link.target) == task);
                into.for_each(|(number, _)| Command::Receive(number).write(&mut bundle));
                Command::Run(task as u16).write(&mut bundle);
                let out_of = messages().filter(|(_, link)| usize::from(link.source) == task);
                out_of.for_each(|(number, _)| Command::Send(number).write(&mut bundle));
            }
        }
        write_claim(claim, &mut bundle);
        bundle
    }
}
