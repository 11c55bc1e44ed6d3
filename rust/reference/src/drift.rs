//! How far each job's time may drift: the greatest time by which a task's work can be longer before the
//! finishing time of its bundle moves.

use crate::checker::finish_with;
use crate::machine::{Machine, Step};
use crate::refusal::Refusal;
use crate::sheet::{Sheet, MOST_PROCESSORS};

/// Four bytes for each task in number order, lowest first (21 to 33, 37).
pub fn report(sheet: &Sheet, bundle: &[u8]) -> Result<Vec<u8>, Refusal> {
    let run = Run::of(sheet, bundle)?;
    let drifts = (0..sheet.tasks.len() as u16).map(|task| run.drift(task));
    Ok(drifts.flat_map(u32::to_le_bytes).collect())
}

/// A run of an accepted bundle to its end, which can be made again with other works: who can step does
/// not depend on clocks.
struct Run {
    done: Vec<Done>,
    links: usize,
    /// The finishing time, which is the claim.
    finish: u32,
}

/// A command that was done, and the time that it took: of a send until the message is there.
struct Done {
    processor: usize,
    step: Step,
    time: u32,
}

impl Run {
    fn of(sheet: &Sheet, bundle: &[u8]) -> Result<Run, Refusal> {
        let machine = Machine::start(sheet, bundle)?;
        let (finish, links) = (machine.claim, machine.links());
        let mut done = Vec::with_capacity(machine.left());
        finish_with(machine, |machine, processor, step| {
            let time = match step {
                Step::Ran(task) => sheet.tasks[usize::from(task)].work.into(),
                Step::Sent(link) => {
                    let stamp = machine.stamp(link.into()).expect("the message was sent");
                    stamp - machine.processors()[processor].clock
                }
                Step::Received(_) => sheet.unpacking.into(),
                _ => return,
            };
            done.push(Done { processor, step, time });
        })?;
        Ok(Run { done, links, finish })
    }

    /// The greatest time by which a task's work can be longer, by halving: 0 leaves the finishing time,
    /// and one more than it is moves it, since the task alone then works longer.
    fn drift(&self, task: u16) -> u32 {
        let (mut leaves, mut moves) = (0, u64::from(self.finish) + 1);
        while moves - leaves > 1 {
            let middle = (leaves + moves) / 2;
            match self.finish_with(task, middle) > self.finish.into() {
                true => moves = middle,
                false => leaves = middle,
            }
        }
        leaves as u32
    }

    /// The finishing time with a task's work so much longer.
    fn finish_with(&self, late: u16, by: u64) -> u64 {
        let (mut clocks, mut stamps) = ([0; MOST_PROCESSORS], vec![0; self.links]);
        for &Done { processor, step, time } in &self.done {
            let (clock, time) = (&mut clocks[processor], u64::from(time));
            match step {
                Step::Ran(task) if task == late => *clock += time + by,
                Step::Sent(link) => stamps[usize::from(link)] = *clock + time,
                Step::Received(link) => *clock = stamps[usize::from(link)].max(*clock) + time,
                _ => *clock += time,
            }
        }
        clocks.into_iter().max().unwrap_or(0)
    }
}
