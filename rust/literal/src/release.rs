//! "Give back store that is finished with": which releases are right, the store in use, and the pass
//! that inserts them.

use crate::bundle::{Action, Bundle, Thing};
use crate::sheet::Sheet;

/// "A release is right if the thing is held by the processor whose programme it stands in, all its
/// local readers have run and, for a result, all its sends are done": of one behind the commands
/// `before` of its programme.
pub fn right(sheet: &Sheet, programme: &[Action], before: &[Action], thing: Thing) -> bool {
    let local = |action: &Action| programme.contains(action);
    let mut readers_and_sends = uses(sheet, thing).into_iter().filter(local);
    held(before, thing) && readers_and_sends.all(|action| before.contains(&action))
}

/// "held": run or received, and not released since.
pub fn held(before: &[Action], thing: Thing) -> bool {
    let got = match thing {
        Thing::Result(task) => Action::Run(task),
        Thing::Message(link) => Action::Receive(link),
    };
    let since = before.iter().rposition(|&action| action == got);
    since.is_some_and(|since| !before[since..].contains(&Action::Release(thing)))
}

/// "its [..] readers" and "for a result [..] its sends", wherever they stand.
fn uses(sheet: &Sheet, thing: Thing) -> Vec<Action> {
    match thing {
        Thing::Result(task) => sheet
            .links_out_of(task)
            .flat_map(|(number, link)| [Action::Run(link.to), Action::Send(number)])
            .collect(),
        Thing::Message(link) => vec![Action::Run(sheet.links[link].to)],
    }
}

/// "Store in use now rises and falls": behind these commands of a programme.
pub fn in_use(sheet: &Sheet, done: &[Action]) -> u64 {
    let [mut risen, mut fallen] = [0; 2];
    for action in done {
        match *action {
            Action::Run(task) => risen += Thing::Result(task).store(sheet),
            Action::Receive(link) => risen += Thing::Message(link).store(sheet),
            Action::Release(thing) => fallen += thing.store(sheet),
            Action::Send(_) => (),
        }
    }
    risen - fallen
}

/// "the highest store in use of each programme", behind any of its commands.
pub fn highest(sheet: &Sheet, programme: &[Action]) -> u64 {
    (0..=programme.len()).map(|done| in_use(sheet, &programme[..done])).max().unwrap_or(0)
}

/// The pass on an accepted bundle and its bytes: "inserts each at its earliest right position"; one
/// "that already has releases comes out as it went in".
pub fn passed(sheet: &Sheet, bundle: &Bundle, bytes: &[u8]) -> Vec<u8> {
    let is_release = |action: &Action| matches!(action, Action::Release(_));
    if bundle.programmes.iter().flatten().any(is_release) {
        return bytes.to_vec();
    }
    let programmes = bundle.programmes.iter().map(|programme| with_releases(sheet, programme));
    Bundle::of_programmes(&programmes.collect::<Vec<_>>(), bundle.claim)
}

/// "inserts each at its earliest right position, results before messages, both in rising number".
fn with_releases(sheet: &Sheet, programme: &[Action]) -> Vec<Action> {
    let earliest = |thing| {
        let behind = |&done: &usize| right(sheet, programme, &programme[..done], thing);
        (0..=programme.len()).find(behind)
    };
    let results = (0..sheet.tasks.len()).map(Thing::Result);
    let messages = (0..sheet.links.len()).map(Thing::Message);
    let mut things: Vec<Thing> = results.chain(messages).collect();
    things.sort();
    let places: Vec<Option<usize>> = things.iter().map(|&thing| earliest(thing)).collect();
    let mut written = Vec::new();
    for done in 0..=programme.len() {
        let here = things.iter().zip(&places).filter(|(_, &place)| place == Some(done));
        written.extend(here.map(|(&thing, _)| Action::Release(thing)));
        written.extend(programme.get(done));
    }
    written
}
