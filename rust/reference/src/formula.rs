//! Weights as formulas, in one pass over the text: what stands before each open parenthesis is kept
//! on a stack of fixed height.

use crate::refusal::{Refusal, FORMULA, VALUE};

/// The most parentheses that may be open together, and the most digits of a number.
const MOST_OPEN: usize = 32;
const MOST_DIGITS: usize = 10;
/// How many values of letters there are.
const LETTERS: usize = 26;

/// A sum and the product behind its last `+`, as far as they are read.
#[derive(Clone, Copy)]
struct Level {
    sum: u64,
    product: u64,
}

const EMPTY: Level = Level { sum: 0, product: 1 };

/// Whether a number or partial result has passed the greatest value; it is 0 from then on.
struct Limit {
    passed: bool,
}

impl Limit {
    fn hold(&mut self, value: u64) -> u64 {
        match value <= u32::MAX.into() {
            true => value,
            false => {
                self.passed = true;
                0
            }
        }
    }
}

/// The weight of a formula with these values of the letters (35, 36).
pub fn weight(text: &[u8], letters: &[u32]) -> Result<u16, Refusal> {
    let mut outer = [EMPTY; MOST_OPEN];
    let mut open = 0;
    let mut level = EMPTY;
    let mut limit = Limit { passed: false };
    let mut at = 0;
    loop {
        // An operand has to come.
        let operand = match text.get(at) {
            Some(b'0'..=b'9') => {
                let digits = text[at..].iter().take(MOST_DIGITS);
                let digits = digits.take_while(|digit| digit.is_ascii_digit());
                let mut number = 0;
                for digit in digits {
                    number = 10 * number + u64::from(digit - b'0');
                    at += 1;
                }
                number
            }
            Some(letter @ b'a'..=b'z') => {
                at += 1;
                letters.get(usize::from(letter - b'a')).copied().unwrap_or(0).into()
            }
            Some(b'(') if open < MOST_OPEN => {
                outer[open] = level;
                open += 1;
                level = EMPTY;
                at += 1;
                continue;
            }
            _ => return Err(Refusal::new(FORMULA, at)),
        };
        let operand = limit.hold(operand);
        level.product = limit.hold(level.product * operand);
        // An operator, or parentheses that close, as many as there are.
        loop {
            match text.get(at) {
                Some(b'*') => break,
                Some(b'+') => {
                    level = Level { sum: limit.hold(level.sum + level.product), product: 1 };
                    break;
                }
                Some(b')') if open > 0 => {
                    let inner = limit.hold(level.sum + level.product);
                    open -= 1;
                    level = outer[open];
                    level.product = limit.hold(level.product * inner);
                    at += 1;
                }
                None if open == 0 => {
                    let value = limit.hold(level.sum + level.product);
                    let right = letters.len() == LETTERS && !limit.passed;
                    return match u16::try_from(value) {
                        Ok(weight @ 1..) if right => Ok(weight),
                        _ => Err(Refusal::new(VALUE, 0)),
                    };
                }
                _ => return Err(Refusal::new(FORMULA, at)),
            }
        }
        at += 1;
    }
}
