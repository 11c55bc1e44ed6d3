//! What is expected of a line: its words in order, and a problem at the first that is another.

use super::letters::Amount;
use super::spelling::meant;
use super::words::{checked_name, is_bare, quoted_short, words, Word, Words};

/// A place in a text, and what is wrong there. Lines and columns count from 1, columns in characters.
#[derive(Clone, Debug, PartialEq, Eq)]
pub struct Problem {
    pub line: usize,
    pub column: usize,
    pub told: String,
}

/// So many problems are looked for; whoever has more does not read on.
pub const MOST_PROBLEMS: usize = 20;

/// Something that stands in a text, with its place.
#[derive(Clone, Debug)]
pub struct Placed<T> {
    pub line: usize,
    pub column: usize,
    pub what: T,
}

impl<T> Placed<T> {
    /// A problem at this place.
    pub fn problem(&self, told: String) -> Problem {
        Problem { line: self.line, column: self.column, told }
    }
}

/// A task as a text names it.
#[derive(Clone, Debug, PartialEq, Eq)]
pub enum Task {
    Number(usize),
    Name(String),
}

/// The words of a line, taken from the front.
pub struct Line {
    number: usize,
    words: std::vec::IntoIter<(usize, Word)>,
    /// The column behind the last word, where something missing is expected.
    end: usize,
}

impl Line {
    /// The words of a line up to its comment.
    pub fn new(number: usize, line: &str) -> Result<Self, Problem> {
        let Words { words, end } =
            words(line).map_err(|(column, told)| Problem { line: number, column, told })?;
        Ok(Line { number, words: words.into_iter(), end })
    }

    /// Whether no word is left.
    pub fn is_empty(&self) -> bool {
        self.words.as_slice().is_empty()
    }

    fn next(&mut self, expected: impl Fn() -> String) -> Result<Placed<Word>, Problem> {
        match self.words.next() {
            Some((column, what)) => Ok(Placed { line: self.number, column, what }),
            None => Err(Problem {
                line: self.number,
                column: self.end,
                told: format!("expected {}", expected()),
            }),
        }
    }

    /// One of these words, by its number.
    pub fn one_of(&mut self, words: &[&str]) -> Result<Placed<usize>, Problem> {
        let Placed { line, column, what } = self.next(|| either(words))?;
        let bare = match &what {
            Word::Bare(text) => Some(text),
            _ => None,
        };
        if let Some(what) = words.iter().position(|word| bare.is_some_and(|text| text == word)) {
            return Ok(Placed { line, column, what });
        }
        let meant = bare.map_or(String::new(), |text| meant(text, words.iter().copied()));
        let told = format!("expected {}, found {}{meant}", either(words), what.shown());
        Err(Problem { line, column, told })
    }

    /// A decimal number up to `most`.
    pub fn number(&mut self, of: &str, most: u32) -> Result<u32, Problem> {
        let expected = || format!("a number for {of}");
        let word = self.next(expected)?;
        match &word.what {
            Word::Bare(text) if text.chars().all(|c| c.is_ascii_digit()) => {
                let number = text.parse().ok().filter(|number| *number <= most);
                number.ok_or_else(|| word.problem(format!("{of} is at most {most}")))
            }
            other => Err(word.problem(format!("expected {}, found {}", expected(), other.shown()))),
        }
    }

    /// A decimal number up to `most`, or a formula.
    pub fn amount(&mut self, of: &str, most: u32) -> Result<Amount, Problem> {
        match self.words.as_slice() {
            [(column, Word::Bare(text)), ..] if !text.chars().all(|c| c.is_ascii_digit()) => {
                let what = text.clone();
                let formula = Placed { line: self.number, column: *column, what };
                self.words.next();
                Ok(Amount::Formula(formula))
            }
            _ => self.number(of, most).map(Amount::Number),
        }
    }

    /// Named things in any order, each once.
    pub fn named<T, const N: usize>(
        &mut self,
        names: [&str; N],
        read: impl FnMut(&mut Self, &str) -> Result<T, Problem>,
    ) -> Result<[T; N], Problem> {
        let found = self.named_from(N, names, read)?;
        Ok(found.map(|thing| thing.expect("each was read")))
    }

    /// Named things in any order, each at most once, of which the first so many have to be there.
    pub fn named_from<T, const N: usize>(
        &mut self,
        needed: usize,
        names: [&str; N],
        mut read: impl FnMut(&mut Self, &str) -> Result<T, Problem>,
    ) -> Result<[Option<T>; N], Problem> {
        let mut found = [(); N].map(|()| None);
        loop {
            // Where the line ends only what is needed is missed.
            let end = if self.is_empty() { needed } else { N };
            let missing: Vec<usize> = (0..end).filter(|&name| found[name].is_none()).collect();
            if missing.is_empty() {
                return Ok(found);
            }
            let words: Vec<&str> = missing.iter().map(|&name| names[name]).collect();
            let name = missing[self.one_of(&words)?.what];
            found[name] = Some(read(self, names[name])?);
        }
    }

    /// Named numbers in any order, each once, with the most that each can be.
    pub fn numbers<const N: usize>(
        &mut self,
        fields: [(&str, u32); N],
    ) -> Result<[u32; N], Problem> {
        self.named(fields.map(|(name, _)| name), |line, name| {
            let most = fields.iter().find(|field| field.0 == name).map_or(0, |field| field.1);
            line.number(name, most)
        })
    }

    /// Letters and their values, `n = 1024, b = 64`, with blanks or without.
    pub fn letter_values(&mut self) -> Result<Vec<(Placed<char>, u32)>, Problem> {
        self.words = self.words.by_ref().flat_map(pieces).collect::<Vec<_>>().into_iter();
        let mut values = Vec::new();
        loop {
            let letter = self.letter()?;
            self.one_of(&["="])?;
            values.push((letter.clone(), self.number(&letter.what.to_string(), u32::MAX)?));
            if self.is_empty() {
                return Ok(values);
            }
            self.one_of(&[","])?;
        }
    }

    /// A letter a to z.
    fn letter(&mut self) -> Result<Placed<char>, Problem> {
        let expected = || "a letter a to z".to_string();
        let word = self.next(expected)?;
        match &word.what {
            Word::Bare(text) if matches!(text.as_bytes(), [b'a'..=b'z']) => {
                let what = text.chars().next().expect("it has one");
                Ok(Placed { line: word.line, column: word.column, what })
            }
            other => Err(word.problem(format!("expected {}, found {}", expected(), other.shown()))),
        }
    }

    /// A task, by its number or its name.
    pub fn task(&mut self) -> Result<Placed<Task>, Problem> {
        let word = self.next(|| "a task".into())?;
        let task = match &word.what {
            Word::Quoted(name) => checked_name(name).map(|()| Task::Name(name.clone())),
            Word::Bare(text) if text.chars().all(|c| c.is_ascii_digit()) => {
                text.parse().map(Task::Number).map_err(|_| "no task has such a number".to_string())
            }
            Word::Bare(name) if is_bare(name) => Ok(Task::Name(name.clone())),
            Word::Bare(name) => Err(format!(
                "{} needs quotes: a name without them has letters, digits, _ . - and begins with no \
                 digit",
                quoted_short(name)
            )),
            Word::Arrow => Err("expected a task, found \"->\"".into()),
        };
        match task {
            Ok(what) => Ok(Placed { line: word.line, column: word.column, what }),
            Err(told) => Err(word.problem(told)),
        }
    }

    /// Two tasks with an arrow between them.
    pub fn ends(&mut self) -> Result<[Placed<Task>; 2], Problem> {
        let source = self.task()?;
        self.arrow()?;
        Ok([source, self.task()?])
    }

    fn arrow(&mut self) -> Result<(), Problem> {
        let word = self.next(|| "\"->\"".into())?;
        match word.what {
            Word::Arrow => Ok(()),
            ref other => Err(word.problem(format!("expected \"->\", found {}", other.shown()))),
        }
    }

    /// The number of a link, if a lone number is next.
    pub fn link_number(&mut self) -> Option<Placed<u32>> {
        let [(column, Word::Bare(text))] = self.words.as_slice() else { return None };
        let what =
            text.chars().all(|c| c.is_ascii_digit()).then(|| text.parse().unwrap_or(u32::MAX));
        let placed = Placed { line: self.number, column: *column, what: what? };
        self.words.next();
        Some(placed)
    }

    /// This word, if it is next.
    pub fn takes(&mut self, word: &str) -> bool {
        let found = matches!(self.words.as_slice(), [(_, Word::Bare(text)), ..] if text == word);
        if found {
            self.words.next();
        }
        found
    }

    /// Nothing behind what was taken.
    pub fn done(mut self) -> Result<(), Problem> {
        match self.words.next() {
            None => Ok(()),
            Some((column, word)) => Err(Problem {
                line: self.number,
                column,
                told: format!("expected the end of the line, found {}", word.shown()),
            }),
        }
    }
}

/// A word in pieces, in which `=` and `,` stand alone.
fn pieces((column, word): (usize, Word)) -> Vec<(usize, Word)> {
    let Word::Bare(text) = word else { return vec![(column, word)] };
    let mut pieces: Vec<(usize, String)> = Vec::new();
    let mut joins = false;
    for (column, c) in (column..).zip(text.chars()) {
        let sign = matches!(c, '=' | ',');
        match pieces.last_mut() {
            Some((_, last)) if joins && !sign => last.push(c),
            _ => pieces.push((column, c.to_string())),
        }
        joins = !sign;
    }
    pieces.into_iter().map(|(column, text)| (column, Word::Bare(text))).collect()
}

/// Words as alternatives.
fn either(words: &[&str]) -> String {
    match words {
        [] => String::new(),
        [one] => format!("\"{one}\""),
        [first @ .., last] => format!(
            "{} or \"{last}\"",
            first.iter().map(|word| format!("\"{word}\"")).collect::<Vec<_>>().join(", ")
        ),
    }
}
