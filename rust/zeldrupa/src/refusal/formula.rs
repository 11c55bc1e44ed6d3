//! The places of refusals of a formula: what stands there and what could, and what its value is.

use super::explanation::Subject;
use super::kinds::kind;
use super::{Explanation, Refusal};

/// How many letters have values.
const LETTERS: usize = 26;

impl Refusal {
    /// The refusal of a formula in words, with what stands at its place or what its value is.
    ///
    /// As [`Refusal::explain`], it is not proved.
    ///
    /// ```
    /// use zeldrupa::{letter_values, weight};
    ///
    /// let letters = letter_values([('n', 1024)]);
    /// let told = |text| weight(text, &letters).unwrap_err().explain_formula(text, &letters).place;
    /// assert_eq!(told("2*(n+8"), "byte 6: the formula stops; ) is missing");
    /// assert_eq!(told("n*n"), "the value is 1048576");
    /// ```
    pub fn explain_formula(self, formula: impl AsRef<[u8]>, letters: &[u32]) -> Explanation {
        let formula = formula.as_ref();
        let place = match self.number {
            35 => format!("byte {}: {}", self.place, at_byte(self.place, formula)),
            _ if letters.len() != LETTERS => format!("the list has {} values", letters.len()),
            _ => match (Value { rest: formula, letters, open: 0 }).sum() {
                Some(value) => format!("the value is {value}"),
                None => "a number or partial result is above 4294967295".into(),
            },
        };
        let kind = kind(self.number);
        Explanation {
            word: self.word(),
            cause: kind.map_or("There is no such refusal.", |kind| kind.cause),
            place,
            remedy: kind.map_or("", |kind| kind.remedy),
            subject: Subject::Other,
            commands: Vec::new(),
        }
    }
}

/// What is wrong at an offset of a text.
fn at_byte(place: u64, text: &[u8]) -> String {
    let at = usize::try_from(place).unwrap_or(usize::MAX).min(text.len());
    let operand_missing = matches!(text[..at].last(), None | Some(b'+' | b'*' | b'('));
    let found = String::from_utf8_lossy(&text[at..]).chars().next();
    let shown = found.map_or(String::new(), |found| format!("{:?}", found.to_string()));
    match found {
        None if operand_missing => "the formula stops; a number, a letter or ( is missing".into(),
        None => "the formula stops; ) is missing".into(),
        Some('(') if operand_missing => "a 33rd parenthesis is opened".into(),
        Some(_) if operand_missing => format!("{shown}; expected a number, a letter or ("),
        Some('0'..='9') if text[..at].last().is_some_and(u8::is_ascii_digit) => {
            "an eleventh digit".into()
        }
        Some(')') => "a ) that closes nothing".into(),
        Some(_) => format!("{shown}; expected + or *"),
    }
}

/// What is left of a formula, the letters' values, and how many parentheses are open: for its value.
struct Value<'a> {
    rest: &'a [u8],
    letters: &'a [u32],
    open: usize,
}

/// The most parentheses that are open together.
const MOST_OPEN: usize = 32;

impl Value<'_> {
    fn takes(&mut self, sign: u8) -> bool {
        let rest = self.rest.strip_prefix(&[sign]);
        self.rest = rest.unwrap_or(self.rest);
        rest.is_some()
    }

    fn sum(&mut self) -> Option<u32> {
        let mut sum = self.product()?;
        while self.takes(b'+') {
            sum = sum.checked_add(self.product()?)?;
        }
        Some(sum)
    }

    fn product(&mut self) -> Option<u32> {
        let mut product = self.operand()?;
        while self.takes(b'*') {
            product = product.checked_mul(self.operand()?)?;
        }
        Some(product)
    }

    fn operand(&mut self) -> Option<u32> {
        if self.open < MOST_OPEN && self.takes(b'(') {
            self.open += 1;
            let inner = self.sum()?;
            self.takes(b')');
            self.open -= 1;
            return Some(inner);
        }
        if let Some((letter @ b'a'..=b'z', rest)) = self.rest.split_first() {
            self.rest = rest;
            return self.letters.get(usize::from(letter - b'a')).copied();
        }
        let digits = self.rest.iter().take_while(|byte| byte.is_ascii_digit()).count();
        let (number, rest) = self.rest.split_at(digits);
        self.rest = rest;
        std::str::from_utf8(number).ok()?.parse().ok()
    }
}

#[cfg(test)]
mod tests {
    use super::Refusal;

    /// Whatever text is lent with a refusal, there are words and no panic.
    #[test]
    fn any_refusal_is_told_of_any_text() {
        let long = "(".repeat(1 << 20);
        for text in ["", "1+", "(n", "n n", "1)", "12345678901", "99999*99999", "é", "(1)2", &long]
        {
            for number in 0..=40 {
                for place in [0, 1, 2, 10, 32, u64::MAX] {
                    for letters in [&[][..], &[7; 26]] {
                        let explained = Refusal { number, place }.explain_formula(text, letters);
                        assert!(!explained.place.is_empty());
                    }
                }
            }
        }
    }
}
