//! Weights as formulas.

use crate::{raw, Refusal};

/// How many letters a formula can have: a to z.
const LETTERS: usize = 26;

/// The weight of a formula with the values of the letters a to z, 26 of them (35, 36).
///
/// A formula has decimal numbers of one to ten digits, letters, `+`, `*` and parentheses, with no
/// spaces; products bind tighter than sums, and equals group from the left.
///
/// ```
/// use zeldrupa::{letter_values, weight};
///
/// let letters = letter_values([('n', 100), ('b', 20)]);
/// assert_eq!(weight("3*n*n+2*(n+b)", &letters), Ok(30_240));
///
/// let refusal = weight("3*n*n+2*(n+b", &letters).unwrap_err();
/// assert_eq!(refusal.to_string(), "refused: formula (35), place 12");
/// let refusal = weight("n*n*n", &letters).unwrap_err();
/// assert_eq!(refusal.to_string(), "refused: value (36), place 0");
/// ```
pub fn weight(formula: impl AsRef<[u8]>, letters: &[u32]) -> Result<u16, Refusal> {
    let weight = Refusal::of(raw::weight(formula.as_ref(), letters))?;
    Ok(u16::try_from(weight).expect("a weight is at most 65,535"))
}

/// The list of the letters' values: those that are given, and 0 for every other letter.
///
/// # Panics
///
/// Where something else than a letter a to z is given.
pub fn letter_values(given: impl IntoIterator<Item = (char, u32)>) -> [u32; LETTERS] {
    let mut values = [0; LETTERS];
    for (letter, value) in given {
        assert!(letter.is_ascii_lowercase(), "{letter:?} is no letter a to z");
        values[letter as usize - 'a' as usize] = value;
    }
    values
}
