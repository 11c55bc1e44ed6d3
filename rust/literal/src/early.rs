//! "Jobs that end early": "if each run command takes any whole time up to its work, each message any up to
//! its stated time and each receive any up to the unpacking time, chosen afresh at every step", what
//! holds of an accepted bundle after every list of choices.

use crate::bundle::{Action, Bundle, Thing};
use crate::machine::Machine;
use crate::release::held;
use crate::sheet::Sheet;

/// A run of an accepted bundle: a choice names a processor, and how much earlier than stated its step
/// ends.
#[derive(Clone, Debug)]
pub struct Run<'a> {
    sheet: &'a Sheet,
    bundle: &'a Bundle,
    pub machine: Machine<'a>,
    /// Whether times were the stated ones throughout.
    stated: bool,
}

/// A choice that was made: the run afterwards, the commands left before, and whether it stepped.
struct Moment<'a> {
    run: &'a Run<'a>,
    left: usize,
    stepped: bool,
}

/// A clause: its words, and whether it holds.
type Clause = (&'static str, fn(&Moment) -> bool);

/// The clauses of the statement.
const CLAUSES: [Clause; 8] = [
    ("each choice that steps still takes one off the commands left", takes_one_off),
    ("some processor can step while any is left", someone_can_step),
    ("no task is done twice", none_twice),
    ("each one done had its inputs", had_inputs),
    ("store holds", store_holds),
    ("the latest clock is at most the claim", at_most_the_claim),
    ("when no command is left every task is done once", all_done_once),
    ("with stated times throughout that clock is the claim", stated_is_the_claim),
];

impl<'a> Run<'a> {
    /// The fresh state.
    pub fn fresh(sheet: &'a Sheet, bundle: &'a Bundle) -> Self {
        Run { sheet, bundle, machine: Machine::fresh(sheet, bundle), stated: true }
    }

    /// Makes a choice: whether it stepped, or the clause that is broken.
    pub fn choose(&mut self, processor: u64, early: u64) -> Result<bool, &'static str> {
        let left = self.machine.left();
        let stepped = self.machine.step_early(processor, early);
        self.stated &= early == 0;
        let moment = Moment { run: self, left, stepped };
        match CLAUSES.iter().find(|clause| !clause.1(&moment)) {
            Some(&(words, _)) => Err(words),
            None => Ok(stepped),
        }
    }

    /// What each processor has done.
    fn done(&self) -> impl Iterator<Item = &'a [Action]> + '_ {
        let programmes = self.bundle.programmes.iter().zip(&self.machine.processors);
        programmes.map(|(programme, processor)| &programme[..processor.position])
    }

    /// How often a task is done.
    fn times(&self, task: usize) -> usize {
        self.done().flatten().filter(|&&action| action == Action::Run(task)).count()
    }
}

fn takes_one_off(moment: &Moment) -> bool {
    moment.run.machine.left() + usize::from(moment.stepped) == moment.left
}

fn someone_can_step(moment: &Moment) -> bool {
    let machine = &moment.run.machine;
    machine.left() == 0 || (0..machine.processors.len()).any(|k| machine.can_step(k))
}

fn none_twice(moment: &Moment) -> bool {
    (0..moment.run.sheet.tasks.len()).all(|task| moment.run.times(task) <= 1)
}

/// "for each link into it, that processor has earlier run the source or received the message, and still
/// holds it".
fn had_inputs(moment: &Moment) -> bool {
    let sheet = moment.run.sheet;
    let present = |before: &[Action], task| {
        sheet.links_into(task).all(|(number, link)| {
            held(before, Thing::Result(link.from)) || held(before, Thing::Message(number))
        })
    };
    moment.run.done().all(|done| {
        done.iter().enumerate().all(|(position, action)| match *action {
            Action::Run(task) => present(&done[..position], task),
            _ => true,
        })
    })
}

fn store_holds(moment: &Moment) -> bool {
    let limit = moment.run.sheet.limit;
    moment.run.machine.processors.iter().all(|processor| processor.store <= limit)
}

fn at_most_the_claim(moment: &Moment) -> bool {
    moment.run.machine.latest_clock() <= moment.run.bundle.claim
}

fn all_done_once(moment: &Moment) -> bool {
    let run = moment.run;
    run.machine.left() > 0 || (0..run.sheet.tasks.len()).all(|task| run.times(task) == 1)
}

fn stated_is_the_claim(moment: &Moment) -> bool {
    let run = moment.run;
    run.machine.left() > 0 || !run.stated || run.machine.latest_clock() == run.bundle.claim
}
