//! The pass that gives store back: each result and each received message is released at its earliest
//! right position, directly behind the last command of its programme that gets or uses it.

use crate::bundle::Command;
use crate::checker;
use crate::command_bytes::{DISCARD_LENGTH, RELEASE_LENGTH};
use crate::machine::Machine;
use crate::messages::{self, Seat};
use crate::refusal::Refusal;
use crate::sheet::Sheet;

/// The bytes of an accepted bundle with its releases, or as they are if it has any (21 to 33, 37).
pub fn pass(sheet: &Sheet, bytes: &[u8]) -> Result<Vec<u8>, Refusal> {
    let (bundle, seats) = messages::read(sheet, bytes)?;
    checker::finish(Machine::fresh(sheet, &bundle, &seats))?;
    match seats.has_releases() {
        true => Ok(bytes.to_vec()),
        false => Ok(insert(bytes, sheet.tasks.len(), &seats.last_uses(sheet))),
    }
}

/// The bytes with a release of each thing behind its last use: behind one command results before
/// messages, both in rising number.
fn insert(bytes: &[u8], tasks: usize, last: &[Seat]) -> Vec<u8> {
    let chains = Chains::new(bytes.len(), last);
    let most = bytes.len() + tasks * RELEASE_LENGTH + (last.len() - tasks) * DISCARD_LENGTH;
    let mut passed = Vec::with_capacity(most);
    let mut rest = bytes;
    while let Some((_, behind)) = Command::split(rest) {
        let (at, end) = (bytes.len() - rest.len(), bytes.len() - behind.len());
        passed.extend(&bytes[at..end]);
        for thing in chains.at(at) {
            let command = match thing < tasks {
                true => Command::Release(thing as u16),
                false => Command::Discard((thing - tasks) as u16),
            };
            command.write(&mut passed);
        }
        rest = behind;
    }
    passed.extend(rest);
    passed
}

/// For each offset the things that are last used by the command there, in rising number.
struct Chains {
    /// One more than the first thing of each offset, and than the next one behind each thing.
    first: Vec<u16>,
    next: Vec<u16>,
}

impl Chains {
    fn new(length: usize, last: &[Seat]) -> Self {
        let (mut first, mut next) = (vec![0; length], vec![0; last.len()]);
        for (thing, seat) in last.iter().enumerate().rev().filter(|(_, seat)| seat.is_taken()) {
            next[thing] = first[seat.offset];
            first[seat.offset] = thing as u16 + 1;
        }
        Chains { first, next }
    }

    fn at(&self, offset: usize) -> impl Iterator<Item = usize> + '_ {
        let thing = |link: u16| usize::from(link).checked_sub(1);
        let next = move |&before: &usize| thing(self.next[before]);
        std::iter::successors(thing(self.first[offset]), next)
    }
}
