//! The places of refusals of the form: what stands at an offset of a sheet or a bundle, and a circle.

use super::explanation::{counted, counts, About, Subject};
use super::seen::{
    self, Seen, BOARD, CUBE, DISCARD, LINK, OPEN, RECEIVE, RELEASE, RUN, SEND, TASK, UNPACKING,
};
use super::Refusal;
use std::collections::VecDeque;

/// Where a sheet's bytes are in fault, and what stands there.
pub(super) fn sheet(refusal: Refusal, about: &About) -> (String, Subject) {
    let bytes = about.sheet;
    let commands = seen::commands(&seen::SHEET, bytes);
    let (index, told) = at_offset(refusal, &commands, bytes.len(), |before, command| {
        let number = before.iter().filter(|other| other.byte == command.byte).count();
        let what = match command.byte {
            TASK => format!("task {}", about.task(number)),
            LINK => format!("link {number}"),
            _ => command.name.unwrap_or_default().to_string(),
        };
        let [from, to] = [0, 1].map(|end| about.task(command.operand(end) as usize));
        let detail = match (refusal.number, command.byte) {
            (3, _) if before.is_empty() => ": before the board".into(),
            (3, BOARD) => ": a second board".into(),
            (3, UNPACKING | CUBE) if number > 0 => ": a second one".into(),
            (3, UNPACKING) => ": not directly behind the board".into(),
            (3, CUBE) => ": not directly behind the board or its unpacking".into(),
            (3, _) => ": behind a link".into(),
            (6, BOARD) => format!(": processors {}", command.operand(0)),
            (6, UNPACKING) => format!(": time {}", command.operand(0)),
            (6, _) => format!(": work {}", command.operand(0)),
            (7, _) => {
                format!(": {from} -> {to}; the sheet has {}", counted(counts(bytes)[0], "task"))
            }
            (8, _) => {
                let mut links = before.iter().filter(|other| other.byte == LINK);
                let same = |other: &Seen| other.operands.get(..2) == command.operands.get(..2);
                let first = links.position(same).unwrap_or(0);
                format!(": {from} -> {to}, as link {first}")
            }
            _ => String::new(),
        };
        what + &detail
    });
    (told, Subject::SheetCommand(index))
}

/// Where a bundle's bytes are in fault, and what stands there.
pub(super) fn bundle(refusal: Refusal, about: &About) -> (String, Subject) {
    let bytes = about.bundle;
    let commands = seen::commands(&seen::BUNDLE, bytes);
    let (index, told) = at_offset(refusal, &commands, bytes.len(), |before, command| {
        let opened = before.iter().filter(|other| other.byte == OPEN).count();
        let name = command.name.unwrap_or_default();
        let what = match command.operands.first() {
            Some(operand) => format!("{name} {operand}"),
            None => name.to_string(),
        };
        let [tasks, links] = counts(about.sheet);
        let detail = match (refusal.number, command.byte) {
            (23, OPEN) if command.operand(0) as usize == opened => {
                let processors = about.sheet.get(1).copied().unwrap_or(0);
                format!("; the board has {}", counted(processors.into(), "processor"))
            }
            (23, OPEN) => format!("; {opened} is next"),
            (23, _) => "; no programme is open".into(),
            (25, RUN | RELEASE) => format!("; the sheet has {}", counted(tasks, "task")),
            (25, SEND | RECEIVE | DISCARD) => {
                format!("; the sheet has {}", counted(links, "link"))
            }
            _ => String::new(),
        };
        let position = before.iter().rev().take_while(|other| other.byte != OPEN).count();
        match (opened, command.byte) {
            (0, _) | (_, OPEN) => what + &detail,
            _ => format!("processor {}, command {position}: {what}{detail}", opened - 1),
        }
    });
    (told, Subject::BundleCommand(index))
}

/// What stands at the offset of a refusal, and which command of the file it is.
fn at_offset(
    refusal: Refusal,
    commands: &[Seen],
    length: usize,
    tell: impl Fn(&[Seen], &Seen) -> String,
) -> (usize, String) {
    let offset = refusal.place;
    let Some(index) = commands.iter().position(|command| command.offset as u64 == offset) else {
        let told = match (length as u64).saturating_sub(offset) {
            0 => "the file ends here".to_string(),
            behind => format!("{} behind the end", counted(behind as usize, "byte")),
        };
        return (commands.len(), format!("byte {offset}: {told}"));
    };
    let command = &commands[index];
    let mut told = match command.name {
        Some(_) => tell(&commands[..index], command),
        None => format!("{:02X} is no command", command.byte),
    };
    if command.there < command.width {
        told += &format!(": {} of its {} operand bytes", command.there, command.width);
    }
    (index, format!("byte {offset}: {told}"))
}

/// The task of 10, and a shortest circle through it.
pub(super) fn circle(refusal: Refusal, about: &About) -> (String, Subject) {
    let Some(first) = usize::try_from(refusal.place).ok().filter(|&task| task < 256) else {
        return (format!("place {}", refusal.place), Subject::Other);
    };
    let links: Vec<[usize; 2]> = seen::commands(&seen::SHEET, about.sheet)
        .iter()
        .filter(|command| command.byte == LINK)
        .map(|link| [0, 1].map(|end| link.operand(end) as usize))
        .collect();
    // Breadth first from the task: who was come to from whom.
    let mut from = vec![None; 256];
    let mut queue = VecDeque::from([first]);
    while let Some(task) = queue.pop_front() {
        for &[_, target] in links.iter().filter(|link| link[0] == task) {
            if from[target].is_none() {
                from[target] = Some(task);
                queue.push_back(target);
            }
        }
    }
    let mut circle = vec![about.task(first)];
    let mut task = from[first];
    while let Some(before) = task {
        circle.push(about.task(before));
        task = if before == first { None } else { from[before] };
    }
    circle.reverse();
    let told = format!("task {}: {}", about.task(first), circle.join(" -> "));
    (told, Subject::Task(first))
}
