//! Damage to bytes and to value lists: set, inserted, removed, swapped, doubled, cut and lengthened.

use crate::random::Random;
use crate::sheets::{CUBE, UNPACKING};

/// The command bytes of sheets and bundles, which make the more interesting damage.
const COMMANDS: [u8; 13] =
    [0x4D, UNPACKING, CUBE, 0x54, 0x45, 0x51, 0x50, 0x52, 0x53, 0x56, 0x46, 0x47, 0x5A];

/// The length of a sheet's command, 1 for a strange byte.
pub fn sheet_command(byte: u8) -> usize {
    match byte {
        0x4D => 6,
        UNPACKING => 3,
        0x54 => 5,
        0x45 => 7,
        _ => 1,
    }
}

/// The length of a bundle's command, 1 for a strange byte.
pub fn bundle_command(byte: u8) -> usize {
    match byte {
        0x50 | 0x52 | 0x46 => 2,
        0x53 | 0x56 | 0x47 => 3,
        0x5A => 5,
        _ => 1,
    }
}

/// The bytes with one to three damages; `length` tells how long each command is.
pub fn few(random: &mut Random, mut whole: Vec<u8>, length: fn(u8) -> usize) -> Vec<u8> {
    (0..random.within(1..=3)).for_each(|_| bytes(random, &mut whole, length));
    whole
}

/// Damages bytes once; `length` tells how long each command is.
pub fn bytes(random: &mut Random, bytes: &mut Vec<u8>, length: fn(u8) -> usize) {
    let at = random.below(bytes.len() + 1);
    let byte = match random.below(4) {
        0 => random.pick(&COMMANDS),
        1 => random.pick(&[0, 1, 0xFF]),
        _ => random.bits() as u8,
    };
    match random.below(10) {
        0 if at < bytes.len() => bytes[at] = byte,
        1 if at < bytes.len() => bytes[at] ^= 1 << random.below(8),
        2 => bytes.insert(at, byte),
        3 if at < bytes.len() => {
            bytes.remove(at);
        }
        4 => bytes.truncate(at),
        5 => bytes.push(byte),
        _ => {
            let mut commands = split(bytes, length);
            damage_records(random, &mut commands);
            *bytes = commands.concat();
        }
    }
}

/// The bytes of a sheet with a time for each receive where none may stand, twice, of 0 or cut.
pub fn unpacking(random: &mut Random, sheet: &[u8]) -> Vec<u8> {
    let [low, high] = random.pick(&[0u16, 1, 255, 256, 65_535]).to_le_bytes();
    let mut command = vec![UNPACKING, low, high];
    command.truncate(random.pick(&[1, 2, 3, 3, 3]));
    misplaced(random, sheet, command)
}

/// The bytes of a sheet with the wires of a cube where they may not stand, or twice.
pub fn cube(random: &mut Random, sheet: &[u8]) -> Vec<u8> {
    misplaced(random, sheet, vec![CUBE])
}

/// The bytes of a sheet with this command near the board or anywhere, beside others of its kind or
/// without them.
fn misplaced(random: &mut Random, sheet: &[u8], command: Vec<u8>) -> Vec<u8> {
    let mut commands = split(sheet, sheet_command);
    if random.once_in(2) {
        commands.retain(|other| other[0] != command[0]);
    }
    let at = match random.below(4) {
        3 => random.below(commands.len() + 1),
        near => 1 + near,
    };
    commands.insert(at.min(commands.len()), command);
    if random.once_in(8) {
        commands.truncate(at + 1);
    }
    commands.concat()
}

/// Damages a list of values once; `record` is how many values make a record.
pub fn values(random: &mut Random, values: &mut Vec<u16>, record: usize) {
    let at = random.below(values.len() + 1);
    let value = match random.below(4) {
        0 => random.pick(&COMMANDS).into(),
        1 => random.pick(&[0, 1, 15, 16, 255, 256, 257, 0x150, 0x152, 1023, 1024, 65_535]),
        2 => random.below(300) as u16,
        _ => random.bits() as u16,
    };
    match random.below(10) {
        0..=2 if at < values.len() => values[at] = value,
        3 => values.insert(at, value),
        4 if at < values.len() => {
            values.remove(at);
        }
        5 => values.truncate(at),
        _ => records(random, values, record),
    }
}

/// Swaps, doubles, moves or removes a record in a list of values.
pub fn records(random: &mut Random, values: &mut Vec<u16>, record: usize) {
    let mut records: Vec<Vec<u16>> = values.chunks(record).map(<[u16]>::to_vec).collect();
    damage_records(random, &mut records);
    *values = records.concat();
}

/// Swaps, doubles, moves or removes a record.
fn damage_records<T: Clone>(random: &mut Random, records: &mut Vec<Vec<T>>) {
    if records.is_empty() {
        return;
    }
    let (one, other) = (random.below(records.len()), random.below(records.len()));
    match random.below(4) {
        0 => records.swap(one, other),
        1 => records.insert(other, records[one].clone()),
        2 => {
            let moved = records.remove(one);
            records.insert(other.min(records.len()), moved);
        }
        _ => {
            records.remove(one);
        }
    }
}

/// The commands of some bytes, the last perhaps cut.
fn split(bytes: &[u8], length: fn(u8) -> usize) -> Vec<Vec<u8>> {
    let mut commands = Vec::new();
    let mut rest = bytes;
    while let Some(&byte) = rest.first() {
        let (command, behind) = rest.split_at(length(byte).min(rest.len()));
        commands.push(command.to_vec());
        rest = behind;
    }
    commands
}
