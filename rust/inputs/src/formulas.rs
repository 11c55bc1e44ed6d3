//! Made-up formulas, right and damaged, and lists of the letters' values.

use crate::random::Random;

/// The characters of the short texts, each kind at its ends, and one that no formula has.
pub const CHARACTERS: [u8; 9] = *b"09az+*() ";

/// How many letters have values.
const LETTERS: usize = 26;

/// Numbers at the ends of what a number, a partial result or a weight may be.
const EDGES: [&str; 14] = [
    "0",
    "1",
    "2",
    "65534",
    "65535",
    "65536",
    "65537",
    "2147483648",
    "4294967294",
    "4294967295",
    "4294967296",
    "9999999999",
    "0000000000",
    "0000000001",
];

/// Shows every text of up to this many of the characters.
pub fn every<E>(longest: usize, mut show: impl FnMut(&[u8]) -> Result<(), E>) -> Result<(), E> {
    let mut numbers: Vec<usize> = Vec::new();
    loop {
        let text: Vec<u8> = numbers.iter().map(|&number| CHARACTERS[number]).collect();
        show(&text)?;
        // The next one: counting up, and a character more where all are the last.
        match numbers.iter().rposition(|&number| number + 1 < CHARACTERS.len()) {
            Some(at) => {
                numbers[at] += 1;
                numbers[at + 1..].fill(0);
            }
            None if numbers.len() < longest => numbers = vec![0; numbers.len() + 1],
            None => return Ok(()),
        }
    }
}

/// An allowed formula of so many numbers and letters, with at most so many parentheses open together.
pub fn any(random: &mut Random, operands: usize, open: usize) -> Vec<u8> {
    let mut text = Vec::new();
    sum(random, operands, open, operand, &mut text);
    text
}

/// The same with values at the edges.
pub fn of_edges(random: &mut Random, operands: usize) -> Vec<u8> {
    let mut text = Vec::new();
    sum(random, operands, 2, edge, &mut text);
    text
}

/// A formula with so many parentheses open together, at its deepest.
pub fn nested(random: &mut Random, open: usize) -> Vec<u8> {
    let operands = random.within(1..=3);
    let mut text = any(random, operands, 0);
    for _ in 0..open {
        text = [b"(", &text[..], b")"].concat();
        match random.below(8) {
            0 => text = [&any(random, 1, 0), &b"+"[..], &text].concat(),
            1 => text = [&b"1*"[..], &text].concat(),
            2 => text.extend(b"*1"),
            3 => text.extend(b"+(a)"),
            _ => {}
        }
    }
    text
}

/// The text with one to three damages.
pub fn damaged(random: &mut Random, mut text: Vec<u8>) -> Vec<u8> {
    for _ in 0..random.within(1..=3) {
        let at = random.below(text.len() + 1);
        let byte = match random.below(4) {
            0 => random.bits() as u8,
            _ => random.pick(b"0123456789abnz+*()+*()/:`{',A "),
        };
        match random.below(8) {
            0..=2 if at < text.len() => text[at] = byte,
            3..=4 => text.insert(at, byte),
            5 if at < text.len() => drop(text.remove(at)),
            6 => text.truncate(at),
            _ => {
                // A piece of it once more.
                let piece = text[at..].iter().take(12).copied().collect::<Vec<u8>>();
                text.splice(at..at, piece);
            }
        }
    }
    text
}

/// Any text of the characters, of up to this length.
pub fn any_text(random: &mut Random, longest: usize) -> Vec<u8> {
    let length = random.below(longest + 1);
    (0..length).map(|_| random.pick(b"0129abz+*()+*()")).collect()
}

/// Values of the letters: small ones, those at the edges or any; now and then too few or too many.
pub fn letters(random: &mut Random) -> Vec<u32> {
    let count = match random.below(16) {
        0 => random.pick(&[0, 1, LETTERS - 1, LETTERS + 1, 2 * LETTERS]),
        _ => LETTERS,
    };
    let kind = random.below(4);
    let value = |random: &mut Random| match kind {
        0 => random.pick(&[0, 1, 65_535, 65_536, 2_147_483_648, u32::MAX]),
        1 => random.bits() as u32,
        _ => random.below(40) as u32,
    };
    (0..count).map(|_| value(random)).collect()
}

/// Operands with signs between them, some in parentheses.
fn sum(
    random: &mut Random,
    operands: usize,
    open: usize,
    operand: fn(&mut Random, &mut Vec<u8>),
    text: &mut Vec<u8>,
) {
    let mut left = operands;
    loop {
        if open > 0 && random.once_in(3) {
            let inner = random.within(1..=left);
            text.push(b'(');
            sum(random, inner, open - 1, operand, text);
            text.push(b')');
            left -= inner;
        } else {
            operand(random, text);
            left -= 1;
        }
        if left == 0 {
            return;
        }
        text.push(random.pick(b"+*"));
    }
}

/// A letter or a number, mostly a small one.
fn operand(random: &mut Random, text: &mut Vec<u8>) {
    match random.below(8) {
        0..=2 => text.push(b'a' + random.below(LETTERS) as u8),
        3 => text.extend(
            format!("{:0width$}", random.below(100), width = random.within(1..=10)).bytes(),
        ),
        4 => text.extend((random.bits() % 10_000_000_000).to_string().bytes()),
        _ => text.extend(random.below(60).to_string().bytes()),
    }
}

/// A number at the edges, or a letter.
fn edge(random: &mut Random, text: &mut Vec<u8>) {
    match random.below(6) {
        0 => text.push(b'a' + random.below(LETTERS) as u8),
        _ => text.extend(random.pick(&EDGES).bytes()),
    }
}
