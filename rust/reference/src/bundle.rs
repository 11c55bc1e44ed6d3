//! A programme bundle: reading it from bytes (21 to 25), its values, and writing it from values.

use crate::command_bytes::*;
use crate::refusal::*;
use crate::sheet::{Sheet, MOST_PROCESSORS};
use std::iter;

/// A command of a programme, or the one that opens it, with its operand.
#[derive(Clone, Copy, Debug, PartialEq, Eq)]
pub enum Command {
    /// Opens the programme of this processor.
    Open(u16),
    /// Runs this task.
    Run(u16),
    /// Sends the message of this link.
    Send(u16),
    /// Receives the message of this link.
    Receive(u16),
    /// Gives back the result of this task.
    Release(u16),
    /// Gives back the received message of this link.
    Discard(u16),
}

impl Command {
    /// The first command of some bytes, if it is a whole one, and the bytes behind it.
    pub fn split(bytes: &[u8]) -> Option<(Command, &[u8])> {
        match *bytes {
            [OPEN, number, ref rest @ ..] => Some((Command::Open(number.into()), rest)),
            [RUN, task, ref rest @ ..] => Some((Command::Run(task.into()), rest)),
            [SEND, low, high, ref rest @ ..] => {
                Some((Command::Send(u16::from_le_bytes([low, high])), rest))
            }
            [RECEIVE, low, high, ref rest @ ..] => {
                Some((Command::Receive(u16::from_le_bytes([low, high])), rest))
            }
            [RELEASE, task, ref rest @ ..] => Some((Command::Release(task.into()), rest)),
            [DISCARD, low, high, ref rest @ ..] => {
                Some((Command::Discard(u16::from_le_bytes([low, high])), rest))
            }
            _ => None,
        }
    }

    /// The command's byte and its operand.
    pub fn values(self) -> [u16; 2] {
        match self {
            Command::Open(number) => [OPEN.into(), number],
            Command::Run(task) => [RUN.into(), task],
            Command::Send(link) => [SEND.into(), link],
            Command::Receive(link) => [RECEIVE.into(), link],
            Command::Release(task) => [RELEASE.into(), task],
            Command::Discard(link) => [DISCARD.into(), link],
        }
    }

    /// Puts the command's bytes at the end of a bundle.
    pub fn write(self, bundle: &mut Vec<u8>) {
        let [command, operand] = self.values();
        let [low, high] = operand.to_le_bytes();
        match self {
            Command::Open(_) | Command::Run(_) | Command::Release(_) => {
                bundle.extend([command as u8, low])
            }
            Command::Send(_) | Command::Receive(_) | Command::Discard(_) => {
                bundle.extend([command as u8, low, high])
            }
        }
    }
}

/// The commands of a programme, or of a part of it.
pub fn commands(mut rest: &[u8]) -> impl Iterator<Item = Command> + '_ {
    iter::from_fn(move || {
        let (command, behind) = Command::split(rest)?;
        rest = behind;
        Some(command)
    })
}

/// Puts the claim's bytes at the end of a bundle.
pub fn write_claim(claim: u32, bundle: &mut Vec<u8>) {
    bundle.push(CLAIM);
    bundle.extend(claim.to_le_bytes());
}

/// A bundle of the published form, in which 21 to 25 do not apply.
#[derive(Clone, Debug)]
pub struct Bundle<'a> {
    /// The bytes of each programme, without the command that opens it.
    programmes: [&'a [u8]; MOST_PROCESSORS],
    opened: usize,
    /// The claimed time.
    pub claim: u32,
}

impl<'a> Bundle<'a> {
    /// Reads a bundle for a sheet (21 to 25).
    pub fn read(sheet: &Sheet, bytes: &'a [u8]) -> Result<Self, Refusal> {
        Bundle::read_with(sheet, bytes, |_, _, _| ())
    }

    /// Reads a bundle, and shows each command with its programme and its offset as it goes.
    pub fn read_with(
        sheet: &Sheet,
        bytes: &'a [u8],
        mut see: impl FnMut(usize, usize, Command),
    ) -> Result<Self, Refusal> {
        let mut form = Form { sheet, opened: 0 };
        let mut programmes: [&[u8]; MOST_PROCESSORS] = [&[]; MOST_PROCESSORS];
        // The bytes of the open programme and all behind it.
        let mut programme = bytes;
        let mut rest = bytes;
        while let Some((command, behind)) = Command::split(rest) {
            let at = bytes.len() - rest.len();
            let opened = form.opened;
            form.take(command).map_err(|number| Refusal::new(number, at))?;
            if let Command::Open(_) = command {
                if opened > 0 {
                    programmes[opened - 1] = &programme[..programme.len() - rest.len()];
                }
                programme = behind;
            } else {
                see(opened - 1, at, command);
            }
            rest = behind;
        }
        let at = bytes.len() - rest.len();
        let [CLAIM, c0, c1, c2, c3, ref tail @ ..] = *rest else {
            return Err(Refusal::new(form.fault(rest.first().copied().map(u16::from)), at));
        };
        if !form.may_end() {
            return Err(Refusal::new(BUNDLE_OUT_OF_TURN, at));
        }
        if !tail.is_empty() {
            return Err(Refusal::new(BUNDLE_TAIL, at + CLAIM_LENGTH));
        }
        let opened = form.opened;
        if opened > 0 {
            programmes[opened - 1] = &programme[..programme.len() - rest.len()];
        }
        Ok(Bundle { programmes, opened, claim: u32::from_le_bytes([c0, c1, c2, c3]) })
    }

    /// The bytes of each programme, without the command that opens it.
    pub fn programmes(&self) -> &[&'a [u8]] {
        &self.programmes[..self.opened]
    }

    /// Two values for each command, those that open a programme among them.
    pub fn values(&self) -> Vec<u16> {
        let mut values = Vec::new();
        for (number, programme) in (0..).zip(self.programmes()) {
            values.extend(Command::Open(number).values());
            values.extend(commands(programme).flat_map(Command::values));
        }
        values
    }
}

/// The bytes of a bundle of these values, two for each command. They are refused as
/// [`Bundle::read`] refuses their bytes; a list that stops inside a pair is a cut command.
pub fn from_values(sheet: &Sheet, commands: &[u16], claim: u32) -> Result<Vec<u8>, Refusal> {
    let mut form = Form { sheet, opened: 0 };
    let mut bundle = Vec::with_capacity(commands.len() / 2 * 3 + CLAIM_LENGTH);
    let (pairs, cut) = commands.as_chunks();
    for &[command, operand] in pairs {
        let refuse = |number| Refusal::new(number, bundle.len());
        let command = match u8::try_from(command) {
            Ok(OPEN) => Command::Open(operand),
            Ok(RUN) => Command::Run(operand),
            Ok(SEND) => Command::Send(operand),
            Ok(RECEIVE) => Command::Receive(operand),
            Ok(RELEASE) => Command::Release(operand),
            Ok(DISCARD) => Command::Discard(operand),
            Ok(CLAIM) if form.may_end() => {
                return Err(Refusal::new(BUNDLE_TAIL, bundle.len() + CLAIM_LENGTH));
            }
            _ => return Err(refuse(form.fault(Some(command)))),
        };
        form.take(command).map_err(refuse)?;
        command.write(&mut bundle);
    }
    if let [command] = *cut {
        return Err(Refusal::new(form.fault(Some(command)), bundle.len()));
    }
    if !form.may_end() {
        return Err(Refusal::new(BUNDLE_OUT_OF_TURN, bundle.len()));
    }
    write_claim(claim, &mut bundle);
    Ok(bundle)
}

/// The form of a bundle up to some command; it judges the next one for reader and writer alike.
struct Form<'a> {
    sheet: &'a Sheet,
    opened: usize,
}

impl Form<'_> {
    /// Whether the claim may stand here: in a programme, or before any on a bare board.
    fn may_end(&self) -> bool {
        self.opened > 0 || self.sheet.is_bare()
    }

    /// Takes a whole command (23, 25).
    fn take(&mut self, command: Command) -> Result<(), u8> {
        let (number, declared) = match command {
            Command::Open(number) => {
                let number = usize::from(number);
                if number != self.opened || number >= self.sheet.processors.into() {
                    return Err(BUNDLE_OUT_OF_TURN);
                }
                self.opened += 1;
                return Ok(());
            }
            Command::Run(task) | Command::Release(task) => (task, self.sheet.tasks.len()),
            Command::Send(link) | Command::Receive(link) | Command::Discard(link) => {
                (link, self.sheet.links.len())
            }
        };
        if self.opened == 0 {
            return Err(BUNDLE_OUT_OF_TURN);
        }
        match usize::from(number) < declared {
            true => Ok(()),
            false => Err(UNKNOWN_NUMBER),
        }
    }

    /// What is wrong with a command that is not whole, from its first byte if there is one
    /// (22, 23, 21).
    fn fault(&self, command: Option<u16>) -> u8 {
        match command.map(u8::try_from) {
            None | Some(Ok(OPEN)) => CUT_BUNDLE,
            Some(Ok(CLAIM)) if self.may_end() => CUT_BUNDLE,
            Some(Ok(RUN | SEND | RECEIVE | RELEASE | DISCARD | CLAIM)) => match self.opened {
                0 => BUNDLE_OUT_OF_TURN,
                _ => CUT_BUNDLE,
            },
            Some(_) => STRANGE_IN_BUNDLE,
        }
    }
}
