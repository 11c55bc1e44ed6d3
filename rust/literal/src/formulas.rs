//! C-16 of document 02, weights as formulas: "turns one formula into a weight".

use crate::refusal::Refusal;

/// "A number or partial result above 4,294,967,295 is refused".
const GREATEST: u64 = 4_294_967_295;

/// "At most 32 parentheses may be open together."
const OPEN_TOGETHER: usize = 32;

/// "decimal numbers of one to ten digits, single letters a to z with u32 values lent by the caller,
/// `+`, `*` and parentheses".
#[derive(Clone, Debug, PartialEq, Eq)]
pub enum Formula {
    Number(Vec<u8>),
    Letter(u8),
    Parentheses(Box<Formula>),
    /// "equals group from the left": what stands left of the last `+` or `*`, and what right.
    Sum(Box<Formula>, Box<Formula>),
    Product(Box<Formula>, Box<Formula>),
}

use Formula::{Letter, Number, Parentheses, Product, Sum};

/// Every way to read a text as a formula, where so many parentheses may be opened.
pub fn readings(text: &[u8], open: usize) -> Vec<Formula> {
    sums(text, open)
}

/// "Products bind tighter than sums": a sum is a product, or a sum, a `+` and a product.
fn sums(text: &[u8], open: usize) -> Vec<Formula> {
    let mut all = products(text, open);
    all.extend(joined(text, b'+', |left| sums(left, open), |right| products(right, open), Sum));
    all
}

/// A product is an operand, or a product, a `*` and an operand.
fn products(text: &[u8], open: usize) -> Vec<Formula> {
    let mut all = operands(text, open);
    all.extend(joined(
        text,
        b'*',
        |left| products(left, open),
        |right| operands(right, open),
        Product,
    ));
    all
}

/// What can be read with this sign between a left and a right part, wherever in the text it stands.
/// A sign before which parentheses are open joins what is inside them, so it is passed over.
fn joined(
    text: &[u8],
    sign: u8,
    left: impl Fn(&[u8]) -> Vec<Formula>,
    right: impl Fn(&[u8]) -> Vec<Formula>,
    join: fn(Box<Formula>, Box<Formula>) -> Formula,
) -> Vec<Formula> {
    let mut all = Vec::new();
    let signs = (0..text.len()).filter(|&at| text[at] == sign);
    for at in signs.filter(|&at| still_open(&text[..at]) == Some(0)) {
        for right in right(&text[at + 1..]) {
            for left in left(&text[..at]) {
                all.push(join(Box::new(left), Box::new(right.clone())));
            }
        }
    }
    all
}

/// How many parentheses are open behind a text; none where more are closed than were opened.
fn still_open(text: &[u8]) -> Option<usize> {
    let count = |sign| text.iter().filter(|&&byte| byte == sign).count();
    count(b'(').checked_sub(count(b')'))
}

/// A number, a letter, or a formula in parentheses.
fn operands(text: &[u8], open: usize) -> Vec<Formula> {
    match text {
        [b'a'..=b'z'] => vec![Letter(text[0])],
        [b'(', inner @ .., b')'] if open > 0 => {
            sums(inner, open - 1).into_iter().map(|sum| Parentheses(Box::new(sum))).collect()
        }
        _ if (1..=10).contains(&text.len()) && text.iter().all(u8::is_ascii_digit) => {
            vec![Number(text.to_vec())]
        }
        _ => Vec::new(),
    }
}

/// "its value is that reading's"; none where "a number or partial result" is above the greatest.
fn value(formula: &Formula, letters: &[u32]) -> Option<u64> {
    let value = match formula {
        Number(digits) => digits.iter().fold(0, |high, &low| 10 * high + u64::from(low - b'0')),
        Letter(letter) => letters[usize::from(letter - b'a')].into(),
        Parentheses(inner) => value(inner, letters)?,
        Sum(left, right) => value(left, letters)? + value(right, letters)?,
        Product(left, right) => value(left, letters)? * value(right, letters)?,
    };
    (value <= GREATEST).then_some(value)
}

/// Whether some allowed text begins so. If any does, then one in which nothing follows but the
/// parentheses that close those which are open, perhaps behind a letter.
fn begins_some(front: &[u8]) -> bool {
    let Some(open) = still_open(front) else { return false };
    [&b""[..], b"a"].into_iter().any(|operand| {
        let text = [front, operand, &vec![b')'; open]].concat();
        !readings(&text, OPEN_TOGETHER).is_empty()
    })
}

/// "placed at the first byte no allowed text could have there, or at the length if it just stops".
fn place(text: &[u8]) -> usize {
    (0..text.len()).find(|&at| !begins_some(&text[..=at])).unwrap_or(text.len())
}

/// The weight of a formula: "35 for a text outside the grammar or nested too deep [..] after it 36
/// for a value or the list, place 0".
pub fn weight(text: &[u8], letters: &[u32]) -> Result<u16, Refusal> {
    let readings = readings(text, OPEN_TOGETHER);
    // "every accepted text has one reading"
    assert!(readings.len() <= 1, "{text:?} has {} readings", readings.len());
    let Some(reading) = readings.first() else { return Err(Refusal::new(35, place(text))) };
    // "a lent list of other than 26 letter values"
    if letters.len() != 26 {
        return Err(Refusal::new(36, 0));
    }
    // "a final value outside 1 to 65,535"
    match value(reading, letters) {
        Some(weight @ 1..=65_535) => Ok(weight as u16),
        _ => Err(Refusal::new(36, 0)),
    }
}
