//! The refusals of the least time: a sheet that is not small, and one for which no arrangement fits.

use super::explanation::{counted, counts};
use super::{seen, About, Explanation, Refusal, Subject};

/// The number of a sheet without store enough, and what it means where all arrangements were tried.
const NO_STORE: u8 = 11;
const CAUSE: &str =
    "However the tasks are arranged in programmes without releases, some processor needs \
                     more than the store limit.";
const REMEDY: &str =
    "Raise the store limit or the processors, make the tasks smaller, or arrange the \
                      programmes by hand with releases: a bundle that fits may exist.";

impl Refusal {
    /// The refusal of [`WorkArea::least`](crate::WorkArea::least) in words: with 11 not one task found no
    /// processor, but no arrangement of all of them fits without releases.
    ///
    /// As [`Refusal::explain`], it is not proved.
    ///
    /// ```
    /// use zeldrupa::{About, Board, Task, WorkArea};
    ///
    /// let mut work = WorkArea::new();
    /// let tasks = [3, 3, 4].map(|store| Task { work: 1, store });
    /// let sheet = work.write_sheet(Board::new(2, 5), &tasks, &[]).unwrap();
    /// let refusal = work.least(&sheet).unwrap_err();
    /// assert_eq!((refusal.number(), refusal.place()), (11, 2));
    /// let about = About { sheet: sheet.bytes(), ..About::default() };
    /// let explained = refusal.explain_least(about);
    /// assert_eq!(explained.place, "3 tasks need 10 in all; the board has 2 processors of 5 each");
    /// ```
    pub fn explain_least(self, about: About) -> Explanation {
        let explained = self.explain(about);
        if self.number != NO_STORE {
            return explained;
        }
        Explanation {
            cause: CAUSE,
            place: stores(&about),
            remedy: REMEDY,
            subject: Subject::Other,
            ..explained
        }
    }
}

/// What the tasks need together, and what the board has.
fn stores(about: &About) -> String {
    let commands = seen::commands(&seen::SHEET, about.sheet);
    let (mut tasks, mut all, mut board) = (0, 0, [0; 2]);
    for command in &commands {
        match command.byte {
            seen::BOARD => board = [0, 1].map(|operand| command.operand(operand)),
            seen::TASK => (tasks, all) = (tasks + 1, all + u64::from(command.operand(1))),
            _ => (),
        }
    }
    let [processors, limit] = board;
    let (tasks, processors) = (counted(tasks, "task"), counted(processors as usize, "processor"));
    format!("{tasks} need {all} in all; the board has {processors} of {limit} each")
}

/// How large a sheet is, and whether it is a cube.
pub(super) fn size(about: &About) -> String {
    let tasks = counted(counts(about.sheet)[0], "task");
    let commands = seen::commands(&seen::SHEET, about.sheet);
    match commands.iter().any(|command| command.byte == seen::CUBE) {
        true => format!("the sheet has {tasks}, and its board is a cube"),
        false => format!("the sheet has {tasks}"),
    }
}
