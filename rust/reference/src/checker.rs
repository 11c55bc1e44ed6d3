//! The checker: whether a bundle is right for its sheet (21 to 26, 31 to 33, 37 and 28), runs to its
//! end (29) and in the claimed time (30).

use crate::machine::{Machine, Processor, Step};
use crate::refusal::*;
use crate::sheet::Sheet;

/// What an accepted bundle is compared by before its bytes: less is better.
#[derive(Clone, Copy, Debug, PartialEq, Eq, PartialOrd, Ord)]
pub struct Merits {
    /// The claimed time.
    pub claim: u32,
    /// How many processors run a task.
    pub runners: usize,
}

/// Checks a bundle against its sheet (21 to 33, 37).
pub fn check(sheet: &Sheet, bundle: &[u8]) -> Result<(), Refusal> {
    finish(Machine::start(sheet, bundle)?)
}

/// The merits of a bundle that is accepted (21 to 33, 37).
pub fn merits(sheet: &Sheet, bundle: &[u8]) -> Result<Merits, Refusal> {
    let machine = Machine::start(sheet, bundle)?;
    let merits = Merits { claim: machine.claim, runners: machine.runners() };
    finish(machine)?;
    Ok(merits)
}

/// Runs a fresh machine to its end (29, 30).
pub fn finish(machine: Machine) -> Result<(), Refusal> {
    finish_with(machine, |_, _, _| ())
}

/// The same, and shows the machine behind each step with the processor that made it.
pub fn finish_with(
    mut machine: Machine,
    see: impl FnMut(&Machine, usize, Step),
) -> Result<(), Refusal> {
    let links = machine.links();
    run_out(&mut machine, links, see);
    if let Some(stuck) = machine.processors().iter().position(Processor::unfinished) {
        return Err(Refusal::new(STUCK, stuck));
    }
    let clock = machine.latest_clock();
    if machine.claim != clock {
        return Err(Refusal { number: WRONG_CLAIM, place: clock.into() });
    }
    Ok(())
}

/// Steps until nobody can: each processor as far as it goes, and again when its message is sent.
fn run_out(machine: &mut Machine, links: usize, mut see: impl FnMut(&Machine, usize, Step)) {
    let mut waiting: Vec<Option<u8>> = vec![None; links];
    let mut able: Vec<u8> = (0..machine.processors().len() as u8).rev().collect();
    while let Some(processor) = able.pop() {
        loop {
            let step = machine.step(processor.into());
            see(machine, processor.into(), step);
            match step {
                Step::Ran(_) | Step::Received(_) | Step::Released(_) | Step::Discarded(_) => (),
                Step::Sent(link) => able.extend(waiting[usize::from(link)].take()),
                Step::Waits(link) => {
                    waiting[usize::from(link)] = Some(processor);
                    break;
                }
                Step::Ended => break,
            }
        }
    }
}
