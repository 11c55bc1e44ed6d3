//! The places of refusals of what the programmes do: runs, messages, releases, store, circles and claims.

use super::explanation::{counted, Place, Read, Subject};
use super::kinds::Counts;
use super::seen::{self, OPEN};
use super::Refusal;
use crate::{Bundle, Command, Machine, Wait};

/// Where a command stands: its programme, and its position in it.
type Stand = [usize; 2];

/// Where it is and what stands there, and the commands that this speaks of.
pub(super) fn place(refusal: Refusal, counts: Counts, read: &Read) -> Place {
    let place = usize::try_from(refusal.place).unwrap_or(usize::MAX);
    let programmes = read.bundle.as_ref().map_or(0, |bundle| bundle.programmes().len());
    let known = match counts {
        Counts::Tasks => place < read.sheet.tasks().len(),
        Counts::Links => place < read.sheet.links().len(),
        Counts::Processors => place < programmes,
        _ => true,
    };
    match (counts, read.bundle.as_ref()) {
        // Something else was lent than what was refused.
        _ if !known => (format!("place {place}"), Subject::Other, Vec::new()),
        (Counts::Tasks, None) => (store_of_task(read, place), Subject::Task(place), Vec::new()),
        (Counts::Tasks, Some(bundle)) => {
            let (told, stands) = runs(read, bundle, place);
            (told, Subject::Task(place), stands)
        }
        (Counts::Links, Some(bundle)) => {
            let (told, stands) = message(read, bundle, place);
            (format!("{}: {told}", read.link(place)), Subject::Link(place), stands)
        }
        (Counts::Processors, Some(bundle)) => {
            // Only a machine that starts can get stuck.
            let (told, stands) = match read.work.clone().start(&read.sheet, bundle) {
                Ok(machine) => waits(read, machine),
                Err(_) => store(read, bundle, place),
            };
            (told, Subject::Processor(place), stands)
        }
        (Counts::Releases, Some(bundle)) => match command_at(read, place) {
            Some((index, stand)) => {
                let (told, stands) = release(read, bundle, stand);
                (format!("byte {place}: {told}"), Subject::BundleCommand(index), stands)
            }
            None => (format!("place {place}"), Subject::Other, Vec::new()),
        },
        (Counts::Time, Some(bundle)) => {
            let told = format!("the claim is {}, the latest clock {place}", bundle.claim());
            (told, Subject::Other, Vec::new())
        }
        _ => (format!("place {place}"), Subject::Other, Vec::new()),
    }
}

/// What a task that found no processor needs.
fn store_of_task(read: &Read, task: usize) -> String {
    let links = read.sheet.links().iter().filter(|link| usize::from(link.target) == task);
    let bytes: u64 = links.map(|link| u64::from(link.bytes)).sum();
    let store = read.sheet.tasks()[task].store;
    let limit = read.sheet.board().limit;
    let name = read.about.task(task);
    format!("task {name}: store {store}, its messages up to {bytes}; a processor has {limit}")
}

/// Wherever this command stands in the whole bundle.
fn stands(bundle: &Bundle, command: Command) -> Vec<Stand> {
    let programmes = bundle.programmes().iter().enumerate();
    programmes
        .flat_map(|(k, programme)| {
            let positions = programme.iter().enumerate().filter(|&(_, other)| *other == command);
            positions.map(move |(position, _)| [k, position]).collect::<Vec<_>>()
        })
        .collect()
}

fn told(&[k, position]: &Stand) -> String {
    format!("processor {k}, command {position}")
}

fn all_told(stands: &[Stand]) -> String {
    stands.iter().map(told).collect::<Vec<_>>().join("; ")
}

/// Where a task is run.
fn runs(read: &Read, bundle: &Bundle, task: usize) -> (String, Vec<Stand>) {
    let stands = stands(bundle, Command::Run(task as u8));
    let name = read.about.task(task);
    let told = match stands.len() {
        0 => format!("task {name} is not run"),
        count => format!("task {name} is run {}: {}", counted(count, "time"), all_told(&stands)),
    };
    (told, stands)
}

/// What is wrong with a link's message: the send is looked at first, then the receive, then the
/// order inside one processor.
fn message(read: &Read, bundle: &Bundle, link: usize) -> (String, Vec<Stand>) {
    let ends = read.sheet.links()[link];
    let run = |task| stands(bundle, Command::Run(task)).first().copied().unwrap_or([0, 0]);
    let (source, target) = (run(ends.source), run(ends.target));
    let [from, to] =
        [ends.source, ends.target].map(|task| format!("task {}", read.about.task(task.into())));
    let sends = stands(bundle, Command::Send(link as u16));
    let receives = stands(bundle, Command::Receive(link as u16));
    let home = source[0];
    if home == target[0] {
        let both = format!("both tasks run on processor {home}, so that no message is needed");
        return match (&sends[..], &receives[..]) {
            ([], []) => {
                let [behind, before] = [source[1], target[1]];
                let told = format!(
                    "{from} runs at processor {home}, command {behind}, behind {to} at command \
                     {before}"
                );
                (told, vec![source, target])
            }
            ([], _) => (format!("{both}; it is received at {}", all_told(&receives)), receives),
            _ => (format!("{both}; it is sent at {}", all_told(&sends)), sends),
        };
    }
    let apart = format!("{from} runs at {}, {to} at {}", told(&source), told(&target));
    let runs = vec![source, target];
    match (&sends[..], &receives[..]) {
        ([], _) => (format!("it is not sent; {apart}"), runs),
        ([_, _, ..], _) => (format!("it is sent more than once: {}", all_told(&sends)), sends),
        ([send], _) if send[0] != home || send[1] < source[1] => {
            let at = told(send);
            let told = format!("it is sent at {at}, not behind {from} on its processor; {apart}");
            (told, [sends, runs].concat())
        }
        (_, []) => (format!("it is not received; {apart}"), runs),
        (_, [_, _, ..]) => {
            (format!("it is received more than once: {}", all_told(&receives)), receives)
        }
        (_, [receive]) => {
            let at = told(receive);
            let told = format!("it is received at {at}, not before {to} on its processor; {apart}");
            (told, [receives, runs].concat())
        }
    }
}

/// Which command of the bundle stands at an offset, and where in its programme.
fn command_at(read: &Read, offset: usize) -> Option<(usize, Stand)> {
    let commands = seen::commands(&seen::BUNDLE, read.about.bundle);
    let index = commands.iter().position(|command| command.offset == offset)?;
    let opens = |command: &&seen::Seen| command.byte == OPEN;
    let k = commands[..=index].iter().filter(opens).count().checked_sub(1)?;
    let position = commands[..index].iter().rev().take_while(|command| !opens(command)).count();
    let programmes = read.bundle.as_ref()?.programmes();
    programmes.get(k)?.get(position).map(|_| (index, [k, position]))
}

/// A command with the names of what it is about.
fn shown(read: &Read, command: Command) -> String {
    command.told(|task| read.about.task(task.into()), |link| read.link(link.into()))
}

/// The command that gets what is released, and those that need it, wherever they stand.
fn got_and_needed(read: &Read, release: Command) -> (Command, Vec<Command>) {
    let links = (0..).zip(read.sheet.links());
    match release {
        Command::Discard(link) => {
            let target = read.sheet.links()[usize::from(link)].target;
            (Command::Receive(link), vec![Command::Run(target)])
        }
        Command::Release(task) => {
            let needed = links.filter(|(_, link)| link.source == task);
            let needed = needed.flat_map(|(n, link)| [Command::Run(link.target), Command::Send(n)]);
            (Command::Run(task), needed.collect())
        }
        other => (other, Vec::new()),
    }
}

/// What is wrong with a release: what it releases is not there, not there yet, there no more, or needed.
fn release(read: &Read, bundle: &Bundle, [k, position]: Stand) -> (String, Vec<Stand>) {
    let programme = &bundle.programmes()[k];
    let release = programme[position];
    let (got, needed) = got_and_needed(read, release);
    let at = |command: &Command| programme.iter().position(|other| other == command);
    let before = programme[..position].iter().position(|&other| other == release);
    let behind = needed.iter().filter_map(at).filter(|&needed| needed > position).max();
    let (told, other) = match (at(&got), before, behind) {
        (None, ..) => (format!("processor {k} does not have it"), None),
        (Some(got), ..) if got > position => ("it is not there before".into(), Some(got)),
        (_, Some(before), _) => ("it is released already at".into(), Some(before)),
        (_, _, Some(behind)) => ("it is still needed at".into(), Some(behind)),
        _ => ("it is right".into(), None),
    };
    let other_told = other.map(|at| format!(" command {at}, {}", shown(read, programme[at])));
    let this = format!("processor {k}, command {position}: {}", shown(read, release));
    let stands = [Some(position), other].into_iter().flatten().map(|at| [k, at]).collect();
    (format!("{this}; {told}{}", other_told.unwrap_or_default()), stands)
}

/// Where a programme needs most of the store, and for what.
fn store(read: &Read, bundle: &Bundle, processor: usize) -> (String, Vec<Stand>) {
    let of_task = |task: u8| i64::from(read.sheet.tasks()[usize::from(task)].store);
    let of_link = |link: u16| i64::from(read.sheet.links()[usize::from(link)].bytes);
    let (mut tasks, mut messages, mut most) = (0, 0, (0, 0, 0, 0));
    for (position, &command) in bundle.programmes()[processor].iter().enumerate() {
        match command {
            Command::Run(task) => tasks += of_task(task),
            Command::Receive(link) => messages += of_link(link),
            Command::Release(task) => tasks -= of_task(task),
            Command::Discard(link) => messages -= of_link(link),
            Command::Send(_) => (),
        }
        if tasks + messages > most.0 {
            most = (tasks + messages, tasks, messages, position);
        }
    }
    let ((all, tasks, messages, position), limit) = (most, read.sheet.board().limit);
    let told = format!(
        "processor {processor}: needs {all} behind command {position} (tasks {tasks}, received \
         messages {messages}); the limit is {limit}"
    );
    (told, vec![[processor, position]])
}

/// Who waits for whom when nobody can step.
fn waits(read: &Read, mut machine: Machine) -> (String, Vec<Stand>) {
    machine.run_out();
    let circle = machine.circle();
    if circle.is_empty() {
        return ("this bundle does not get stuck".into(), Vec::new());
    }
    let tell = |wait: &Wait| {
        format!(
            "processor {} waits at command {} for {}, which processor {} sends at command {}",
            wait.processor,
            wait.position,
            read.link(wait.link.into()),
            wait.sender,
            wait.send
        )
    };
    let told = circle.iter().map(tell).collect::<Vec<_>>().join("; ");
    let ends = |wait: &Wait| [[wait.processor, wait.position], [wait.sender, wait.send]];
    (told, circle.iter().flat_map(ends).collect())
}
