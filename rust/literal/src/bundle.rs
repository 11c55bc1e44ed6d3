//! The bundle: "`50` (u8) opens a processor's programme, numbered 0, 1, 2 and so on with no gap,
//! below the sheet's processors. A programme may be empty. In it stand `52` run (task u8), `53`
//! send (link u16), `56` receive (link u16). `5A` (claimed time u32) ends the bundle." And C-18: "New
//! bundle commands: `46` (task u8) releases a result, `47` (link u16) a received message."

use crate::commands::{count, Command, Format, Text};
use crate::placing::Placed;
use crate::refusal::Refusal;
use crate::sheet::Sheet;

const OPEN: u8 = 0x50;
const RUN: u8 = 0x52;
const SEND: u8 = 0x53;
const RECEIVE: u8 = 0x56;
const RELEASE_RESULT: u8 = 0x46;
const RELEASE_MESSAGE: u8 = 0x47;
const CLAIM: u8 = 0x5A;

/// "per command 22, 23 (no programme open), 21, 23 (number), 25; then 24".
static BUNDLE: Format<Sheet> = Format {
    kinds: &[
        (OPEN, &[1]),
        (RUN, &[1]),
        (SEND, &[2]),
        (RECEIVE, &[2]),
        (RELEASE_RESULT, &[1]),
        (RELEASE_MESSAGE, &[2]),
        (CLAIM, &[4]),
    ],
    end: CLAIM,
    rules: &[
        (22, strange),
        (23, no_programme_open),
        (21, cut),
        (23, wrong_number),
        (25, unknown_number),
    ],
    cut: 21,
    tail: 24,
};

/// 22, strange command: "not a command byte of a bundle".
fn strange(_: &Sheet, _: &[Command], command: &Command) -> bool {
    BUNDLE.widths(command.byte).is_none()
}

/// 23, out of turn: "before the first `50`"; but on a sheet without tasks "`5A` before any `50` no
/// longer gives 23".
fn no_programme_open(sheet: &Sheet, before: &[Command], command: &Command) -> bool {
    let bare_end = sheet.tasks.is_empty() && command.is(CLAIM);
    !command.is(OPEN) && count(before, OPEN) == 0 && !bare_end
}

/// 21, cut bundle: "as 1".
fn cut(_: &Sheet, _: &[Command], command: &Command) -> bool {
    command.operands.is_none()
}

/// 23, out of turn: "wrong number in `50`".
fn wrong_number(sheet: &Sheet, before: &[Command], command: &Command) -> bool {
    command.is(OPEN) && {
        let number = command.operand(0) as usize;
        number != count(before, OPEN) || number >= sheet.processors
    }
}

/// 25, unknown number: "undeclared task or link".
fn unknown_number(sheet: &Sheet, _: &[Command], command: &Command) -> bool {
    let declared = match command.byte as u8 {
        RUN | RELEASE_RESULT => sheet.tasks.len(),
        SEND | RECEIVE | RELEASE_MESSAGE => sheet.links.len(),
        _ => return false,
    };
    command.operand(0) as usize >= declared
}

/// A command that stands in a programme.
#[derive(Clone, Copy, Debug, PartialEq, Eq)]
pub enum Action {
    /// Runs a task.
    Run(usize),
    /// Sends a link's message.
    Send(usize),
    /// Receives a link's message.
    Receive(usize),
    /// Gives back the store of a thing.
    Release(Thing),
}

/// What a processor holds, from its run or its receive on. The order is that of the pass: "results
/// before messages, both in rising number".
#[derive(Clone, Copy, Debug, PartialEq, Eq, PartialOrd, Ord)]
pub enum Thing {
    /// A task's result.
    Result(usize),
    /// A link's received message.
    Message(usize),
}

impl Thing {
    /// The store that it takes: "the task's store", "the link's bytes".
    pub fn store(self, sheet: &Sheet) -> u64 {
        match self {
            Thing::Result(task) => sheet.tasks[task].store,
            Thing::Message(link) => sheet.links[link].bytes,
        }
    }
}

/// A bundle of the published form.
#[derive(Clone, Debug, PartialEq, Eq)]
pub struct Bundle {
    pub programmes: Vec<Vec<Action>>,
    /// The offset of each command of each programme.
    pub offsets: Vec<Vec<usize>>,
    /// "claimed time".
    pub claim: u64,
}

impl Bundle {
    /// Reads a bundle for a sheet.
    pub fn read(sheet: &Sheet, bytes: &[u8]) -> Result<Bundle, Refusal> {
        let text = BUNDLE.split(bytes);
        let (commands, claim) = BUNDLE.judge(sheet, &text)?;
        let mut programmes: Vec<Vec<Action>> = Vec::new();
        let mut offsets: Vec<Vec<usize>> = Vec::new();
        for command in commands {
            match (action(command), programmes.last_mut(), offsets.last_mut()) {
                (Some(action), Some(programme), Some(offsets)) => {
                    programme.push(action);
                    offsets.push(command.offset);
                }
                _ => {
                    programmes.push(Vec::new());
                    offsets.push(Vec::new());
                }
            }
        }
        Ok(Bundle { programmes, offsets, claim: claim.operand(0).into() })
    }

    /// The values of a bundle's bytes: docs/INTERFACE.md: "two values a command, its byte and its
    /// operand, each `50` with the number of its programme among them", and the claim.
    pub fn values(sheet: &Sheet, bytes: &[u8]) -> Result<(Vec<u16>, u32), Refusal> {
        let text = BUNDLE.split(bytes);
        let (commands, claim) = BUNDLE.judge(sheet, &text)?;
        let pairs = commands.iter().flat_map(|command| [command.byte, command.operand(0) as u16]);
        Ok((pairs.collect(), claim.operand(0)))
    }

    /// The bytes of such values: "A writer refuses values as the reader would refuse their bytes".
    pub fn write(sheet: &Sheet, commands: &[u16], claim: u32) -> Result<Vec<u8>, Refusal> {
        let mut text = Text::default();
        for pair in commands.chunks(2) {
            let operand: Vec<u32> = pair[1..].iter().map(|&value| value.into()).collect();
            BUNDLE.push(&mut text, pair[0], &operand);
        }
        BUNDLE.push(&mut text, CLAIM.into(), &[claim]);
        BUNDLE.judge(sheet, &text)?;
        Ok(BUNDLE.bytes(&text))
    }

    /// The processor whose programme runs a task.
    pub fn processor_of(&self, task: usize) -> usize {
        let mut programmes = self.programmes.iter();
        let runs_it = |programme: &Vec<Action>| programme.contains(&Action::Run(task));
        programmes.position(runs_it).expect("26 does not apply")
    }

    /// The bytes of these programmes with a claim.
    pub fn of_programmes(programmes: &[Vec<Action>], claim: u64) -> Vec<u8> {
        let mut text = Text::default();
        for (k, programme) in programmes.iter().enumerate() {
            BUNDLE.push(&mut text, OPEN.into(), &[k as u32]);
            for &action in programme {
                let (byte, number) = command(action);
                BUNDLE.push(&mut text, byte.into(), &[number as u32]);
            }
        }
        BUNDLE.push(&mut text, CLAIM.into(), &[claim as u32]);
        BUNDLE.bytes(&text)
    }

    /// The bytes of a plan. "Programmes list tasks in placing order." "The claim is the latest finish."
    /// "Numbers skipped below the highest one used are written as empty programmes."
    pub fn of_plan(sheet: &Sheet, placed: &[Placed]) -> Vec<u8> {
        let highest = placed.iter().map(|placed| placed.processor).max();
        let tasks = |k| placed.iter().filter(move |placed| placed.processor == k);
        let programmes = (0..highest.map_or(0, |k| k + 1))
            .map(|k| tasks(k).map(|placed| placed.task).collect())
            .collect::<Vec<Vec<usize>>>();
        Bundle::written(sheet, &programmes, latest_finish(placed))
    }

    /// The bytes of programmes that list these tasks: "Each programme is written directly behind the one
    /// before it."
    pub fn written(sheet: &Sheet, programmes: &[Vec<usize>], claim: u64) -> Vec<u8> {
        let mut text = Text::default();
        for (k, programme) in programmes.iter().enumerate() {
            BUNDLE.push(&mut text, OPEN.into(), &[k as u32]);
            for &task in programme {
                push_task(&mut text, sheet, programme, task);
            }
        }
        BUNDLE.push(&mut text, CLAIM.into(), &[claim as u32]);
        BUNDLE.bytes(&text)
    }
}

/// "For each task: receives of its links from other processors in rising link number, run, sends of
/// its links to other processors likewise." The programme holds all tasks of its processor.
fn push_task(text: &mut Text, sheet: &Sheet, programme: &[usize], task: usize) {
    for (link, _) in sheet.links_into(task).filter(|(_, link)| !programme.contains(&link.from)) {
        BUNDLE.push(text, RECEIVE.into(), &[link as u32]);
    }
    BUNDLE.push(text, RUN.into(), &[task as u32]);
    for (link, _) in sheet.links_out_of(task).filter(|(_, link)| !programme.contains(&link.to)) {
        BUNDLE.push(text, SEND.into(), &[link as u32]);
    }
}

/// "the latest finish".
pub fn latest_finish(placed: &[Placed]) -> u64 {
    placed.iter().map(|placed| placed.finish).max().unwrap_or(0)
}

/// What a command does in its programme, if it does not open one.
fn action(command: &Command) -> Option<Action> {
    let number = command.operand(0) as usize;
    match command.byte as u8 {
        RUN => Some(Action::Run(number)),
        SEND => Some(Action::Send(number)),
        RECEIVE => Some(Action::Receive(number)),
        RELEASE_RESULT => Some(Action::Release(Thing::Result(number))),
        RELEASE_MESSAGE => Some(Action::Release(Thing::Message(number))),
        _ => None,
    }
}

/// The byte and the operand of what stands in a programme.
fn command(action: Action) -> (u8, usize) {
    match action {
        Action::Run(task) => (RUN, task),
        Action::Send(link) => (SEND, link),
        Action::Receive(link) => (RECEIVE, link),
        Action::Release(Thing::Result(task)) => (RELEASE_RESULT, task),
        Action::Release(Thing::Message(link)) => (RELEASE_MESSAGE, link),
    }
}
