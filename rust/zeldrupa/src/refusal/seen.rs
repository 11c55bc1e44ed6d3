//! The commands of some bytes, as far as they can be told apart: for explanations only.

/// What a file is made of.
pub(crate) struct Format {
    /// Each command's byte, its name, and how many bytes each of its operands has.
    kinds: &'static [(u8, &'static str, &'static [usize])],
    end: u8,
}

pub(crate) const BOARD: u8 = 0x4D;
pub(crate) const UNPACKING: u8 = 0x55;
pub(crate) const CUBE: u8 = 0x48;
pub(crate) const TASK: u8 = 0x54;
pub(crate) const LINK: u8 = 0x45;
const SHEET_END: u8 = 0x51;
pub(crate) const OPEN: u8 = 0x50;
pub(crate) const RUN: u8 = 0x52;
pub(crate) const SEND: u8 = 0x53;
pub(crate) const RECEIVE: u8 = 0x56;
pub(crate) const RELEASE: u8 = 0x46;
pub(crate) const DISCARD: u8 = 0x47;
const CLAIM: u8 = 0x5A;

pub(crate) static SHEET: Format = Format {
    kinds: &[
        (BOARD, "board", &[1, 4]),
        (UNPACKING, "unpacking", &[2]),
        (CUBE, "cube", &[]),
        (TASK, "task", &[2, 2]),
        (LINK, "link", &[1, 1, 2, 2]),
        (SHEET_END, "end", &[]),
    ],
    end: SHEET_END,
};

pub(crate) static BUNDLE: Format = Format {
    kinds: &[
        (OPEN, "processor", &[1]),
        (RUN, "run", &[1]),
        (SEND, "send", &[2]),
        (RECEIVE, "receive", &[2]),
        (RELEASE, "release", &[1]),
        (DISCARD, "discard", &[2]),
        (CLAIM, "claim", &[4]),
    ],
    end: CLAIM,
};

/// A command that stands in some bytes.
pub(crate) struct Seen {
    pub offset: usize,
    pub byte: u8,
    /// Its name, if there is such a command.
    pub name: Option<&'static str>,
    /// Its operands, as far as they are whole.
    pub operands: Vec<u32>,
    /// How many bytes its operands have, and how many of them are there.
    pub width: usize,
    pub there: usize,
}

impl Seen {
    /// An operand, 0 where it is cut off.
    pub fn operand(&self, number: usize) -> u32 {
        self.operands.get(number).copied().unwrap_or(0)
    }
}

/// The commands of some bytes: up to the end, or up to one that is strange or cut.
pub(crate) fn commands(format: &Format, bytes: &[u8]) -> Vec<Seen> {
    let mut commands = Vec::new();
    let mut offset = 0;
    while let Some(&byte) = bytes.get(offset) {
        let kind = format.kinds.iter().find(|kind| kind.0 == byte);
        let widths = kind.map_or(&[][..], |kind| kind.2);
        let (mut rest, mut operands) = (&bytes[offset + 1..], Vec::new());
        let there = rest.len();
        for &width in widths {
            let Some((operand, behind)) = rest.split_at_checked(width) else { break };
            operands.push(operand.iter().rev().fold(0, |high, &low| high << 8 | u32::from(low)));
            rest = behind;
        }
        let width: usize = widths.iter().sum();
        let name = kind.map(|kind| kind.1);
        commands.push(Seen { offset, byte, name, operands, width, there: there.min(width) });
        if kind.is_none() || there < width || byte == format.end {
            break;
        }
        offset += 1 + width;
    }
    commands
}
