//! The sheet: "in this order: one `4D` (processors u8, 1 to 16; store limit M u32); then tasks `54`
//! (work u16, 1 to 65,535; store u16), numbered from 0, at most 256; then links `45` (from u8, to
//! u8, cost u16, bytes u16), numbered from 0, at most 1,024; then `51`, the end." And C-14: "A new
//! sheet command `55` with a u16, 1 to 65,535, may stand directly after `4D`; without it the time is
//! 0." And C-20: "A sheet command `48`, without operands, directly after `4D` or the `55` if there is
//! one".

use crate::commands::{count, Command, Format, Text};
use crate::refusal::Refusal;

const BOARD: u8 = 0x4D;
const UNPACKING: u8 = 0x55;
const CUBE: u8 = 0x48;
const TASK: u8 = 0x54;
const LINK: u8 = 0x45;
const END: u8 = 0x51;

/// "the sheet from its first byte, in one command 2, 3, 1, 5, 6, 7, 8; then 4".
static SHEET: Format<()> = Format {
    kinds: &[
        (BOARD, &[1, 4]),
        (UNPACKING, &[2]),
        (CUBE, &[]),
        (TASK, &[2, 2]),
        (LINK, &[1, 1, 2, 2]),
        (END, &[]),
    ],
    end: END,
    rules: &[
        (2, strange),
        (3, out_of_turn),
        (1, cut),
        (5, over_full),
        (6, out_of_range),
        (7, loose_link),
        (8, doubled_link),
    ],
    cut: 1,
    tail: 4,
};

/// 2, strange command: "not a command byte of a sheet".
fn strange(_: &(), _: &[Command], command: &Command) -> bool {
    SHEET.widths(command.byte).is_none()
}

/// 3, out of turn: "order of kinds broken"; of a `55`, which may stand "directly after `4D`", "a wrong
/// position gives 3"; and of a `48`, which stands "directly after `4D` or the `55`", "elsewhere it gives
/// 3".
fn out_of_turn(_: &(), before: &[Command], command: &Command) -> bool {
    let ranks = [BOARD, UNPACKING, CUBE, TASK, LINK, END];
    let rank = |command: &Command| ranks.iter().position(|&kind| command.is(kind));
    match before.last() {
        None => !command.is(BOARD),
        Some(last) if command.is(UNPACKING) => !last.is(BOARD),
        Some(last) if command.is(CUBE) => !last.is(BOARD) && !last.is(UNPACKING),
        Some(last) => command.is(BOARD) || rank(command) < rank(last),
    }
}

/// 1, cut sheet: "operands [..] missing".
fn cut(_: &(), _: &[Command], command: &Command) -> bool {
    command.operands.is_none()
}

/// 5, over-full: "257th task, 1,025th link".
fn over_full(_: &(), before: &[Command], command: &Command) -> bool {
    command.is(TASK) && count(before, TASK) == 256
        || command.is(LINK) && count(before, LINK) == 1024
}

/// 6, range: "processors or work"; and of a `55` "a value of 0 gives 6".
fn out_of_range(_: &(), _: &[Command], command: &Command) -> bool {
    command.is(BOARD) && !(1..=16).contains(&command.operand(0))
        || command.is(TASK) && !(1..=65_535).contains(&command.operand(0))
        || command.is(UNPACKING) && command.operand(0) == 0
}

/// 7, loose link: "undeclared task".
fn loose_link(_: &(), before: &[Command], command: &Command) -> bool {
    let undeclared = |end| command.operand(end) as usize >= count(before, TASK);
    command.is(LINK) && (undeclared(0) || undeclared(1))
}

/// 8, doubled link: "same from and to again".
fn doubled_link(_: &(), before: &[Command], command: &Command) -> bool {
    let ends = |link: &Command| [link.operand(0), link.operand(1)];
    command.is(LINK) && before.iter().any(|link| link.is(LINK) && ends(link) == ends(command))
}

/// A task: "work u16, 1 to 65,535; store u16".
#[derive(Clone, Copy, Debug, PartialEq, Eq)]
pub struct Task {
    pub work: u64,
    pub store: u64,
}

/// A link: "from u8, to u8, cost u16, bytes u16".
#[derive(Clone, Copy, Debug, PartialEq, Eq)]
pub struct Link {
    pub from: usize,
    pub to: usize,
    pub cost: u64,
    pub bytes: u64,
}

/// A sheet without fault.
#[derive(Clone, Debug, Default, PartialEq, Eq)]
pub struct Sheet {
    pub processors: usize,
    /// "store limit M".
    pub limit: u64,
    /// "a receive costs the receiver a fixed time"; without a `55` "the time is 0".
    pub unpacking: u64,
    /// Whether a `48` says that the board "joins processors whose numbers differ in one bit".
    pub cube: bool,
    pub tasks: Vec<Task>,
    pub links: Vec<Link>,
}

impl Sheet {
    /// Reads a sheet.
    pub fn read(bytes: &[u8]) -> Result<Sheet, Refusal> {
        judged(&SHEET.split(bytes))
    }

    /// The bytes of these values: "A writer refuses values as the reader would refuse their bytes".
    /// docs/INTERFACE.md: an unpacking time of 0 "writes no `55`", and a `cube` of 0 "no `48`, any other
    /// one".
    pub fn write(
        processors: u8,
        limit: u32,
        unpacking: u16,
        cube: u8,
        tasks: &[u16],
        links: &[u16],
    ) -> Result<Vec<u8>, Refusal> {
        let mut text = Text::default();
        SHEET.push(&mut text, BOARD.into(), &[processors.into(), limit]);
        if unpacking > 0 {
            SHEET.push(&mut text, UNPACKING.into(), &[unpacking.into()]);
        }
        if cube > 0 {
            SHEET.push(&mut text, CUBE.into(), &[]);
        }
        push_values(&mut text, tasks, links);
        judged(&text)?;
        Ok(SHEET.bytes(&text))
    }

    /// How often a message's cost counts from one processor to another: on a cube "the count of bits in
    /// which the two processor numbers differ", else once; nothing is sent inside one processor.
    pub fn hops(&self, from: usize, to: usize) -> u64 {
        match self.cube {
            true => u64::from((from ^ to).count_ones()),
            false => u64::from(from != to),
        }
    }

    /// Whether one task is a successor of the other.
    pub fn linked(&self, from: usize, to: usize) -> bool {
        self.links.iter().any(|link| (link.from, link.to) == (from, to))
    }

    /// The links into a task, with their numbers.
    pub fn links_into(&self, task: usize) -> impl Iterator<Item = (usize, &Link)> {
        self.links.iter().enumerate().filter(move |(_, link)| link.to == task)
    }

    /// The links out of a task, with their numbers.
    pub fn links_out_of(&self, task: usize) -> impl Iterator<Item = (usize, &Link)> {
        self.links.iter().enumerate().filter(move |(_, link)| link.from == task)
    }
}

/// Puts the values behind a board, two for a task and four for a link, and then the end;
/// docs/INTERFACE.md: "A list of values that stops inside a record stands for a command that is cut
/// there".
fn push_values(text: &mut Text, tasks: &[u16], links: &[u16]) {
    for (kind, values, width) in [(TASK, tasks, 2), (LINK, links, 4)] {
        for record in values.chunks(width) {
            let operands: Vec<u32> = record.iter().map(|&value| value.into()).collect();
            SHEET.push(text, kind.into(), &operands);
        }
    }
    SHEET.push(text, END.into(), &[]);
}

/// The sheet of a text: per command, "then 4, 9, 10", where C-13 says of 9 that it "is retired and its
/// position in the order falls away": "A sheet without tasks, and so without links" is one too.
fn judged(text: &Text) -> Result<Sheet, Refusal> {
    let (commands, _) = SHEET.judge(&(), text)?;
    let sheet = declared(commands);
    // 10, loop: "tasks in a circle", "lowest task on one".
    match (0..sheet.tasks.len()).find(|&task| on_a_circle(&sheet, task)) {
        Some(task) => Err(Refusal::new(10, task)),
        None => Ok(sheet),
    }
}

/// What the commands before the end declare.
fn declared(commands: &[Command]) -> Sheet {
    let mut sheet = Sheet::default();
    for command in commands {
        let number = |operand| u64::from(command.operand(operand));
        match command.byte as u8 {
            BOARD => (sheet.processors, sheet.limit) = (number(0) as usize, number(1)),
            UNPACKING => sheet.unpacking = number(0),
            CUBE => sheet.cube = true,
            TASK => sheet.tasks.push(Task { work: number(0), store: number(1) }),
            _ => sheet.links.push(Link {
                from: number(0) as usize,
                to: number(1) as usize,
                cost: number(2),
                bytes: number(3),
            }),
        }
    }
    sheet
}

/// Whether links lead from a task back to it.
fn on_a_circle(sheet: &Sheet, task: usize) -> bool {
    let mut reached = vec![task];
    let mut next = 0;
    while let Some(&from) = reached.get(next) {
        for (_, link) in sheet.links_out_of(from) {
            if link.to == task {
                return true;
            }
            if !reached.contains(&link.to) {
                reached.push(link.to);
            }
        }
        next += 1;
    }
    false
}
