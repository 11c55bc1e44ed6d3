//! Sheet and bundle: "Both are commands of one byte (hexadecimal below), then unsigned operands,
//! lowest byte first; u8, u16, u32 give the bits."

use crate::refusal::Refusal;

/// A command as it stands in a sheet or a bundle.
#[derive(Clone, Debug)]
pub struct Command {
    /// "An offset is that of the command's first byte."
    pub offset: usize,
    /// Its one byte. A writer's value may be no byte at all.
    pub byte: u16,
    /// Its operands, if none is missing.
    pub operands: Option<Vec<u32>>,
}

impl Command {
    /// Whether it has this byte.
    pub fn is(&self, byte: u8) -> bool {
        self.byte == byte.into()
    }

    /// An operand of a whole command.
    pub fn operand(&self, number: usize) -> u32 {
        self.operands.as_ref().expect("the rule of cut commands comes before")[number]
    }
}

/// How many of these commands have this byte.
pub fn count(commands: &[Command], byte: u8) -> usize {
    commands.iter().filter(|command| command.is(byte)).count()
}

/// The commands of some bytes or values, and the length of the bytes.
#[derive(Clone, Debug, Default)]
pub struct Text {
    pub commands: Vec<Command>,
    pub length: usize,
}

/// Whether a command, behind the commands before it, breaks a rule.
pub type Broken<C> = fn(&C, &[Command], &Command) -> bool;

/// What a sheet or a bundle is made of; `C` is what its rules have to know beside its commands.
pub struct Format<C: 'static> {
    /// Each command's byte, and how many bytes each of its operands has.
    pub kinds: &'static [(u8, &'static [usize])],
    /// The command that ends it.
    pub end: u8,
    /// What one command is refused with, in the order in which the rules are tried.
    pub rules: &'static [(u8, Broken<C>)],
    /// The number where the end is missing.
    pub cut: u8,
    /// The number of bytes after the end.
    pub tail: u8,
}

impl<C> Format<C> {
    /// How many bytes each operand of a command has, if there is such a command.
    pub fn widths(&self, byte: u16) -> Option<&'static [usize]> {
        self.kinds.iter().find(|kind| u16::from(kind.0) == byte).map(|kind| kind.1)
    }

    /// How many bytes a whole command has.
    fn length(&self, byte: u16) -> usize {
        1 + self.widths(byte).unwrap_or(&[]).iter().sum::<usize>()
    }

    /// The commands of some bytes: up to the end, or up to one that is strange or cut.
    pub fn split(&self, bytes: &[u8]) -> Text {
        let mut text = Text { commands: Vec::new(), length: bytes.len() };
        let mut offset = 0;
        while let Some(&byte) = bytes.get(offset) {
            let behind = &bytes[offset + 1..];
            let operands = self.widths(byte.into()).and_then(|widths| operands(behind, widths));
            let last = operands.is_none() || byte == self.end;
            text.commands.push(Command { offset, byte: byte.into(), operands });
            if last {
                break;
            }
            offset += self.length(byte.into());
        }
        text
    }

    /// Puts a command behind a text. With too few operands it is cut: its bytes stop behind the
    /// first.
    pub fn push(&self, text: &mut Text, byte: u16, operands: &[u32]) {
        let whole = operands.len() >= self.widths(byte).map_or(0, <[usize]>::len);
        let operands = whole.then(|| operands.to_vec());
        text.commands.push(Command { offset: text.length, byte, operands });
        text.length += if whole { self.length(byte) } else { 1 };
    }

    /// The bytes of a text without fault.
    pub fn bytes(&self, text: &Text) -> Vec<u8> {
        let mut bytes = Vec::new();
        for command in &text.commands {
            bytes.push(command.byte as u8);
            for (number, &width) in self.widths(command.byte).unwrap_or(&[]).iter().enumerate() {
                bytes.extend(&command.operand(number).to_le_bytes()[..width]);
            }
        }
        bytes
    }

    /// The commands before the end and the end itself, if no command is in fault, the end is there
    /// and nothing is behind it.
    pub fn judge<'a>(
        &self,
        context: &C,
        text: &'a Text,
    ) -> Result<(&'a [Command], &'a Command), Refusal> {
        for (number, command) in text.commands.iter().enumerate() {
            let before = &text.commands[..number];
            let broken = self.rules.iter().find(|rule| rule.1(context, before, command));
            if let Some(&(number, _)) = broken {
                return Err(Refusal::new(number, command.offset));
            }
            if command.is(self.end) {
                let behind = command.offset + self.length(command.byte);
                return match text.length > behind {
                    true => Err(Refusal::new(self.tail, behind)),
                    false => Ok((before, command)),
                };
            }
        }
        Err(Refusal::new(self.cut, text.length))
    }
}

/// The operands at the front of some bytes, "lowest byte first", if none is missing.
fn operands(bytes: &[u8], widths: &[usize]) -> Option<Vec<u32>> {
    let mut rest = bytes;
    let mut operands = Vec::new();
    for &width in widths {
        let (operand, behind) = rest.split_at_checked(width)?;
        operands.push(operand.iter().rev().fold(0, |high, &low| high * 256 + u32::from(low)));
        rest = behind;
    }
    Some(operands)
}
