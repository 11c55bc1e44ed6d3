//! A refusal in the user's terms. Explanations are not proved: the number and the place are the
//! library's, and what is told of them is looked up in the same bytes by this module.

use super::kinds::{kind, Counts};
use super::{form, least, programmes, seen, Refusal};
use crate::{Bundle, Sheet, WorkArea};
use std::fmt::{self, Display, Formatter};

/// What a refused call was about.
#[derive(Clone, Copy, Debug, Default)]
pub struct About<'a> {
    /// The bytes of the sheet.
    pub sheet: &'a [u8],
    /// The bytes of the bundle, if there was one.
    pub bundle: &'a [u8],
    /// The names of the tasks in number order, where they have some.
    pub names: &'a [String],
}

/// What in the sheet or the bundle a refusal points to.
#[derive(Clone, Copy, Debug, PartialEq, Eq)]
pub enum Subject {
    /// This command of the sheet, counted from 0 with the board.
    SheetCommand(usize),
    /// This command of the bundle, counted from 0 with those that open a programme.
    BundleCommand(usize),
    /// This task.
    Task(usize),
    /// This link.
    Link(usize),
    /// This processor.
    Processor(usize),
    /// Nothing in them: a claim, or what was lent.
    Other,
}

/// A refusal in words; [`Refusal::explain`] makes one.
#[derive(Clone, Debug, PartialEq, Eq)]
pub struct Explanation {
    /// The trade's word for it.
    pub word: &'static str,
    /// Why there is no result.
    pub cause: &'static str,
    /// Where it is, and what stands there.
    pub place: String,
    /// What to do about it.
    pub remedy: &'static str,
    /// What it points to.
    pub subject: Subject,
    /// The commands of programmes that the place speaks of: programme and position.
    pub commands: Vec<[usize; 2]>,
}

impl Display for Explanation {
    fn fmt(&self, f: &mut Formatter) -> fmt::Result {
        writeln!(f, "{}: {}", self.word, self.cause)?;
        writeln!(f, "where: {}", self.place)?;
        write!(f, "remedy: {}", self.remedy)
    }
}

impl Refusal {
    /// The refusal in words, with its place in the user's terms.
    ///
    /// Explanations are not proved. Number and place are the library's; the words are this crate's.
    ///
    /// ```
    /// use zeldrupa::{About, WorkArea};
    ///
    /// let sheet = include_bytes!("../../../../examples/k1.sheet");
    /// let bundle = [0x50, 0, 0x52, 3, 0x52, 200, 0x5A, 0, 0, 0, 0];
    /// let refusal = WorkArea::new().check(sheet, bundle).unwrap_err();
    /// let explained = refusal.explain(About { sheet, bundle: &bundle, names: &[] });
    /// assert_eq!(explained.place, "byte 4: processor 0, command 1: run 200; the sheet has 4 tasks");
    /// ```
    pub fn explain(self, about: About) -> Explanation {
        let kind = kind(self.number);
        let without = |(place, subject)| (place, subject, Vec::new());
        let counts = kind.map_or(Counts::Lent, |kind| kind.counts);
        let (place, subject, commands) = match (counts, Read::new(about)) {
            (Counts::SheetBytes, _) => without(form::sheet(self, &about)),
            (Counts::BundleBytes, _) => without(form::bundle(self, &about)),
            // A sheet that cannot be read and is refused by a task has a circle.
            (Counts::Tasks, None) => without(form::circle(self, &about)),
            (Counts::FormulaBytes | Counts::Value, _) => {
                without((format!("place {} of the formula", self.place), Subject::Other))
            }
            (Counts::Lent, _) => {
                without((format!("{} elements are needed", self.place), Subject::Other))
            }
            (Counts::Nothing, _) => without(("both bundles".into(), Subject::Other)),
            (Counts::Size, _) => without((least::size(&about), Subject::Other)),
            (_, Some(read)) => programmes::place(self, counts, &read),
            (_, None) => without((format!("place {}", self.place), Subject::Other)),
        };
        Explanation {
            word: self.word(),
            cause: kind.map_or("There is no such refusal.", |kind| kind.cause),
            place,
            remedy: kind.map_or("", |kind| kind.remedy),
            subject,
            commands,
        }
    }
}

impl About<'_> {
    /// A task by its name, or by its number.
    pub(super) fn task(&self, task: usize) -> String {
        self.names.get(task).cloned().unwrap_or_else(|| task.to_string())
    }
}

/// Where a refusal is in words, what it points to, and the commands that it speaks of.
pub(super) type Place = (String, Subject, Vec<[usize; 2]>);

/// A sheet that can be read, and its bundle, if that can be.
pub(super) struct Read<'a> {
    pub about: About<'a>,
    pub work: WorkArea,
    pub sheet: Sheet,
    pub bundle: Option<Bundle>,
}

impl<'a> Read<'a> {
    fn new(about: About<'a>) -> Option<Self> {
        let mut work = WorkArea::new();
        let sheet = work.read_sheet(about.sheet).ok()?;
        let bundle = work.read_bundle(&sheet, about.bundle).ok();
        Some(Read { about, work, sheet, bundle })
    }

    /// A link by its number and the tasks at its ends.
    pub fn link(&self, link: usize) -> String {
        let ends = &self.sheet.links()[link];
        let [source, target] = [ends.source, ends.target].map(|task| self.about.task(task.into()));
        format!("link {link}, {source} -> {target}")
    }
}

/// How many of something there are.
pub(super) fn counted(count: usize, what: &str) -> String {
    match count {
        1 => format!("1 {what}"),
        _ => format!("{count} {what}s"),
    }
}

/// The counts of tasks and links that some bytes of a sheet have.
pub(super) fn counts(sheet: &[u8]) -> [usize; 2] {
    let commands = seen::commands(&seen::SHEET, sheet);
    [seen::TASK, seen::LINK]
        .map(|byte| commands.iter().filter(|command| command.byte == byte).count())
}

#[cfg(test)]
mod tests {
    use super::{About, Refusal};

    /// Whatever is lent with a refusal, there are words and no panic.
    #[test]
    fn any_refusal_is_told_of_any_bytes() {
        let k1 = include_bytes!("../../../../examples/k1.sheet");
        let plan = include_bytes!("../../../../examples/k1.bundle");
        let stuck = include_bytes!("../../../../examples/k6.bundle");
        let released = include_bytes!("../../../../examples/k1-released.bundle");
        let sheets = (0..=k1.len()).map(|end| &k1[..end]);
        let bare = b"\x4D\x01\0\0\0\0\x51";
        let others = [&b"\x51"[..], b"\x45\0", b"?", b"\x4D\x01\0\0\0\0\x45\x07", bare];
        for sheet in sheets.chain(others) {
            let claims = [&b"\x5A"[..], b"\x5A\0\0\0\0", b"\x50\0\x5A\x01\0\0\0\0"];
            let bundles = [&plan[..], stuck, released, &plan[..9], &plan[..1], b"", b"?"];
            for bundle in bundles.into_iter().chain(claims) {
                for number in 0..=40 {
                    for place in [0, 1, 2, 3, 4, 6, 12, 16, 26, 47, 48, 255, 256, u64::MAX] {
                        let explained =
                            Refusal { number, place }.explain(About { sheet, bundle, names: &[] });
                        assert!(!explained.place.is_empty());
                    }
                }
            }
        }
    }
}
