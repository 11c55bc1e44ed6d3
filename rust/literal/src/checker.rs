//! The checker behind the form: "26 to 30".

use crate::bundle::{Action, Bundle};
use crate::machine::Machine;
use crate::refusal::Refusal;
use crate::release::{highest, right};
use crate::sheet::Sheet;

/// A rule of the checker: the refusal of a bundle that breaks it.
type Rule = fn(&Sheet, &Bundle) -> Option<Refusal>;

/// "A bundle has [..] the published messages if 26 and 27 don't" apply, where "31 (send), 32 (receive)
/// and 33 (local order) stand for 27 in every rule and in its position"; 37 comes "after 33 and before
/// 28; published messages and the machine's start rule it out"; the public machine starts if none of
/// "21 to 28" does.
const STANDING: [Rule; 4] = [run_count, message, wrong_release, over_store];

/// What only shows when it runs.
const RUNNING: [Rule; 2] = [stuck, wrong_claim];

/// Whether a bundle is accepted.
pub fn check(sheet: &Sheet, bundle: &Bundle) -> Result<(), Refusal> {
    startable(sheet, bundle)?;
    none_broken(&RUNNING, sheet, bundle)
}

/// Whether the public machine starts.
pub fn startable(sheet: &Sheet, bundle: &Bundle) -> Result<(), Refusal> {
    none_broken(&STANDING, sheet, bundle)
}

/// The refusal of the first of these rules that is broken.
fn none_broken(rules: &[Rule], sheet: &Sheet, bundle: &Bundle) -> Result<(), Refusal> {
    rules.iter().find_map(|rule| rule(sheet, bundle)).map_or(Ok(()), Err)
}

/// Where a command stands: its programme, and its position in it.
type Stand = (usize, usize);

/// Wherever this command stands in the whole bundle.
fn stands(bundle: &Bundle, action: Action) -> Vec<Stand> {
    let mut stands = Vec::new();
    for (k, programme) in bundle.programmes.iter().enumerate() {
        for (position, &other) in programme.iter().enumerate() {
            if other == action {
                stands.push((k, position));
            }
        }
    }
    stands
}

/// 26, run count: "task not run just once", "lowest task".
fn run_count(sheet: &Sheet, bundle: &Bundle) -> Option<Refusal> {
    let once = |task| stands(bundle, Action::Run(task)).len() == 1;
    (0..sheet.tasks.len()).find(|&task| !once(task)).map(|task| Refusal::new(26, task))
}

/// "For the lowest link in fault the send is looked at first, then the receive, then the order
/// inside one processor", "each with the link as place".
fn message(sheet: &Sheet, bundle: &Bundle) -> Option<Refusal> {
    let fault = |link| Some(Refusal::new(message_fault(sheet, bundle, link)?, link));
    (0..sheet.links.len()).find_map(fault)
}

/// The fault of one link: 31 (send), 32 (receive) or 33 (local order).
fn message_fault(sheet: &Sheet, bundle: &Bundle, link: usize) -> Option<u8> {
    let run_of = |task| stands(bundle, Action::Run(task))[0];
    let (source, target) = (run_of(sheet.links[link].from), run_of(sheet.links[link].to));
    let sends = stands(bundle, Action::Send(link));
    let receives = stands(bundle, Action::Receive(link));
    let (wrong_send, wrong_receive, wrong_order) = if source.0 == target.0 {
        // "a message on a link inside one processor is a fault of the send if any send names it, else
        // of the receive"; "or its source runs after its target"
        (!sends.is_empty(), !receives.is_empty(), source.1 > target.1)
    } else {
        // "not exactly one send and one receive in the whole bundle, or its send isn't after its
        // source's run in that run's programme, or its receive isn't before its target's run in that
        // run's programme"
        let wrong_send = sends.len() != 1 || !before(source, sends[0]);
        (wrong_send, receives.len() != 1 || !before(receives[0], target), false)
    };
    [(wrong_send, 31), (wrong_receive, 32), (wrong_order, 33)]
        .into_iter()
        .find_map(|(wrong, number)| wrong.then_some(number))
}

/// Whether one command stands before another in the same programme.
fn before(one: Stand, other: Stand) -> bool {
    one.0 == other.0 && one.1 < other.1
}

/// 37, "a wrong release, place the first one's offset".
fn wrong_release(sheet: &Sheet, bundle: &Bundle) -> Option<Refusal> {
    for (programme, offsets) in bundle.programmes.iter().zip(&bundle.offsets) {
        for (position, action) in programme.iter().enumerate() {
            if let Action::Release(thing) = *action {
                if !right(sheet, programme, &programme[..position], thing) {
                    return Some(Refusal::new(37, offsets[position]));
                }
            }
        }
    }
    None
}

/// 28, over store: "compares the highest store in use of each programme with M", "lowest processor".
fn over_store(sheet: &Sheet, bundle: &Bundle) -> Option<Refusal> {
    let above = |programme: &Vec<Action>| highest(sheet, programme) > sheet.limit;
    bundle.programmes.iter().position(above).map(|k| Refusal::new(28, k))
}

/// 29, stuck: "no one can step, commands left", "lowest unfinished processor".
fn stuck(sheet: &Sheet, bundle: &Bundle) -> Option<Refusal> {
    let machine = run_out(sheet, bundle);
    let unfinished = |&k: &usize| machine.next(k).is_some();
    (0..bundle.programmes.len()).find(unfinished).map(|k| Refusal::new(29, k))
}

/// 30, wrong claim: "claim is not the latest clock", "that clock".
fn wrong_claim(sheet: &Sheet, bundle: &Bundle) -> Option<Refusal> {
    let clock = run_out(sheet, bundle).latest_clock();
    (clock != bundle.claim).then_some(Refusal { number: 30, place: clock })
}

/// The machine when no one can step; "Any processor able to step may be next", here the lowest.
pub fn run_out<'a>(sheet: &'a Sheet, bundle: &'a Bundle) -> Machine<'a> {
    let mut machine = Machine::fresh(sheet, bundle);
    while (0..bundle.programmes.len()).any(|k| machine.step(k as u64)) {}
    machine
}
