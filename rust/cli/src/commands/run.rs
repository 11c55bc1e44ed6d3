//! `run`: the machine, choice by choice.

use super::check::needed_bundle;
use super::Command;
use crate::answer::{Answer, Fault};
use crate::arguments::Arguments;
use crate::loader::{Loader, SheetFile};
use crate::table::aligned;
use crate::text::{hops_shown, link_shown};
use crate::trace::{step, Event};
use inputs::Random;
use zeldrupa::{Bundle, Command as Step, Machine};

pub const COMMAND: Command = Command {
    name: "run",
    usage: "SHEET [BUNDLE] [--order 1,1,0,7 | --random SEED]",
    files: 1..=2,
    options: &[
        ("--order", "choose these processors, one after the other, and stop"),
        ("--random", "choose at random until nobody can step; the same seed chooses alike"),
    ],
    brief: "step the machine: a line for each choice, then clocks and stores",
    full: "\
Steps the machine by one command of one chosen processor at a time, also of a bundle that gets stuck
or claims wrongly. A line says what was done, or what the processor waits for and who has to send
it; on a cube, how many hops a message makes. Without options the processors take turns until nobody
can step.",
    answer,
};

fn answer(loader: &mut Loader, arguments: &Arguments) -> Result<Answer, Fault> {
    let order = match (arguments.text("--order"), arguments.text("--random")) {
        (Some(_), Some(_)) => {
            return Err(COMMAND.misused("takes either --order or --random"));
        }
        (Some(order), None) => Order::Given(given(&order)?),
        (None, Some(seed)) => {
            let seed = seed.parse().map_err(|_| COMMAND.misused("takes a number as the seed"))?;
            Order::Random(Random::new(seed))
        }
        (None, None) => Order::Turns,
    };
    let sheet = loader.sheet(&arguments.files[0])?;
    let bundle = needed_bundle(loader, &sheet, &arguments.files, &COMMAND)?;
    let mut machine = loader.start(&sheet, &bundle)?;
    let mut log = Log { of: &sheet, bundle: &bundle.bundle, text: String::new(), choices: 0 };
    match order {
        Order::Given(choices) => {
            choices.iter().for_each(|&choice| log.choose(&mut machine, choice));
        }
        Order::Turns => {
            while able(&machine) {
                unfinished(&machine).iter().for_each(|&choice| log.choose(&mut machine, choice));
            }
            log.stuck(&mut machine);
        }
        Order::Random(mut random) => {
            while able(&machine) {
                let choice = random.pick(&unfinished(&machine));
                log.choose(&mut machine, choice);
            }
            log.stuck(&mut machine);
        }
    }
    // On a bare board there may be no choice to tell of.
    if log.choices > 0 {
        log.text.push('\n');
    }
    log.text += &state(&machine, &sheet);
    Ok(Answer::text(log.text))
}

/// How the next processor is chosen.
enum Order {
    Given(Vec<u64>),
    Random(Random),
    Turns,
}

/// The choices of `--order`.
fn given(order: &str) -> Result<Vec<u64>, Fault> {
    let choices = order.split(',').map(|choice| choice.trim().parse());
    choices.collect::<Result<_, _>>().map_err(|_| {
        COMMAND.misused(&format!("takes numbers with commas between them, not \"{order}\""))
    })
}

/// The processors that have a command left.
fn unfinished(machine: &Machine) -> Vec<u64> {
    let processors = 0..machine.processors().count();
    processors.filter(|&k| machine.next(k).is_some()).map(|k| k as u64).collect()
}

/// Whether any processor can step.
fn able(machine: &Machine) -> bool {
    unfinished(machine).iter().any(|&k| machine.waits(k as usize).is_none())
}

/// The lines so far.
struct Log<'a> {
    of: &'a SheetFile,
    bundle: &'a Bundle,
    text: String,
    choices: usize,
}

impl Log<'_> {
    /// Makes a choice and says what came of it.
    fn choose(&mut self, machine: &mut Machine, choice: u64) {
        let told = match step(machine, choice) {
            Some(event) => self.done(&event),
            None => self.not_done(machine, usize::try_from(choice).unwrap_or(usize::MAX)),
        };
        self.choices += 1;
        self.text += &format!("{:>4}  processor {choice}: {told}\n", self.choices);
    }

    /// What each processor of a stuck machine waits for.
    fn stuck(&mut self, machine: &mut Machine) {
        unfinished(machine).iter().for_each(|&choice| self.choose(machine, choice));
    }

    fn done(&self, event: &Event) -> String {
        let Event { start, finish, store, .. } = *event;
        let link = |link: u16| link_shown(&self.of.sheet, &self.of.names, link.into());
        match event.command {
            Step::Run(task) => {
                let name = self.of.names.told(task.into());
                format!("runs {name} from {start} to {finish}, store {store}")
            }
            Step::Send(number) => {
                let stamp = event.stamp.unwrap_or_default();
                let to = self.bundle.receiver(number).unwrap_or(event.processor);
                let hops = hops_shown(self.of.sheet.board(), event.processor, to);
                format!("sends {} at {start}{hops}, there at {stamp}", link(number))
            }
            Step::Receive(number) => {
                let (link, at) = (link(number), event.has_message());
                let received = match event.waited() {
                    0 => format!("receives {link} at {at}"),
                    _ => format!("waits for {link} from {start} to {at}"),
                };
                let unpacked = match event.unpacked() {
                    0 => String::new(),
                    _ => format!(", unpacks it until {finish}"),
                };
                format!("{received}{unpacked}, store {store}")
            }
            Step::Release(task) => {
                let name = self.of.names.told(task.into());
                format!("releases {name} at {start}, store {store}")
            }
            Step::Discard(number) => {
                format!("discards {} at {start}, store {store}", link(number))
            }
        }
    }

    fn not_done(&self, machine: &Machine, k: usize) -> String {
        match machine.waits(k) {
            Some(wait) => format!(
                "cannot step: {} is not sent yet; processor {} sends it at its command {}",
                link_shown(&self.of.sheet, &self.of.names, wait.link.into()),
                wait.sender,
                wait.send
            ),
            None if machine.processor(k).is_some() => "is done".into(),
            None => "has no programme".into(),
        }
    }
}

/// Clocks, stores and commands left.
fn state(machine: &Machine, of: &SheetFile) -> String {
    let mut rows = vec![["processor", "clock", "store", "next"].map(str::to_string).into()];
    for (k, processor) in machine.processors().enumerate() {
        let link = |link: u16| link_shown(&of.sheet, &of.names, link.into());
        let task = |task: u8| of.names.told(task.into());
        let next = machine.next(k).map(|command| command.told(task, link));
        rows.push(vec![
            k.to_string(),
            processor.clock.to_string(),
            processor.store.to_string(),
            next.unwrap_or_else(|| "done".into()),
        ]);
    }
    let left = machine.left();
    let stuck = if left > 0 && !able(machine) { ": stuck" } else { "" };
    format!(
        "{}commands left {left}{stuck}, latest clock {}\n",
        aligned(&rows),
        machine.latest_clock()
    )
}
