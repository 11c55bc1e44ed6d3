//! The letters of a text's formulas, and a formula's weight.

use super::line::{Line, Placed, Problem};
use super::words::quoted_short;
use zeldrupa::{letter_values, weight};

/// The number of a text that is no formula.
pub const NO_FORMULA: u8 = 35;

/// The values that a text gives to letters, each with its line.
#[derive(Debug, Default)]
pub struct Letters {
    given: Vec<(char, u32, usize)>,
}

/// A number of a text, or a formula that stands for one.
#[derive(Debug)]
pub enum Amount {
    Number(u32),
    Formula(Placed<String>),
}

impl Letters {
    /// `n = 1024, b = 64`, each letter once in the whole text.
    pub fn read(&mut self, line: &mut Line) -> Result<(), Problem> {
        for (letter, value) in line.letter_values()? {
            if let Some((.., first)) = self.given.iter().find(|given| given.0 == letter.what) {
                let told =
                    format!("a second value for {}; the first is in line {first}", letter.what);
                return Err(letter.problem(told));
            }
            self.given.push((letter.what, value, letter.line));
        }
        Ok(())
    }

    /// The values of all letters, 0 for those without one.
    pub fn values(&self) -> [u32; 26] {
        letter_values(self.given.iter().map(|&(letter, value, _)| (letter, value)))
    }

    /// The first letter of a formula that has no value, by its offset.
    pub fn missing(&self, formula: &str) -> Option<(usize, char)> {
        let known = |letter| self.given.iter().any(|given| given.0 == letter);
        formula.char_indices().find(|&(_, c)| c.is_ascii_lowercase() && !known(c))
    }

    /// What an amount is with these letters.
    pub fn amount(&self, of: &str, amount: &Amount) -> Result<u32, Problem> {
        let formula = match amount {
            Amount::Number(number) => return Ok(*number),
            Amount::Formula(formula) => formula,
        };
        let (text, values) = (&formula.what, self.values());
        let at = |offset: usize, told| {
            // Columns count characters.
            let before = text.char_indices().filter(|&(at, _)| at < offset).count();
            Err(Problem { line: formula.line, column: formula.column + before, told })
        };
        match (weight(text, &values), self.missing(text)) {
            // A text that is no formula has no letters to miss.
            (Err(refusal), _) if refusal.number() == NO_FORMULA => {
                let place = refusal.explain_formula(text, &values).place;
                let told = place.split_once(": ").map_or(place.as_str(), |(_, told)| told);
                let told = format!("{} is no formula: {told}", quoted_short(text));
                at(refusal.place() as usize, told)
            }
            (_, Some((offset, letter))) => {
                at(offset, format!("no value for {letter}; give one with: let {letter} = .."))
            }
            (Err(refusal), None) => {
                let place = refusal.explain_formula(text, &values).place;
                at(0, format!("{of} is 1 to 65535: of {}, {place}", quoted_short(text)))
            }
            (Ok(weight), None) => Ok(weight.into()),
        }
    }
}
