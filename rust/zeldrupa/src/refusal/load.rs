//! The refusal of a test load: which of its numbers is out of its range.

use super::explanation::Subject;
use super::{Explanation, Refusal};
use crate::Load;

/// The numbers of a load.
const CAUSE: &str =
    "A load has a seed other than 0, 1 to 256 tasks, at most 1,024 tries for links, \
                     and 1 to 16 processors.";

impl Refusal {
    /// The refusal of a test load in words, with the number that is out of its range.
    ///
    /// As [`Refusal::explain`], it is not proved.
    ///
    /// ```
    /// use zeldrupa::{Load, WorkArea};
    ///
    /// let load = Load { seed: 7, tasks: 257, tries: 40, processors: 4, limit: 4096 };
    /// let refusal = WorkArea::new().generate(load).unwrap_err();
    /// assert_eq!((refusal.number(), refusal.place()), (6, 0));
    /// assert_eq!(refusal.explain_load(load).place, "tasks 257");
    /// ```
    pub fn explain_load(self, load: Load) -> Explanation {
        let Load { seed, tasks, tries, processors, .. } = load;
        let outside = [
            ("seed", seed, seed == 0),
            ("tasks", tasks, !(1..=256).contains(&tasks)),
            ("tries", tries, tries > 1024),
            ("processors", processors, !(1..=16).contains(&processors)),
        ];
        let outside = outside.into_iter().filter(|(_, _, outside)| *outside);
        let told: Vec<String> =
            outside.map(|(name, number, _)| format!("{name} {number}")).collect();
        Explanation {
            word: self.word(),
            cause: CAUSE,
            place: match told.is_empty() {
                true => format!("place {}", self.place),
                false => told.join(", "),
            },
            remedy: "Correct the number.",
            subject: Subject::Other,
            commands: Vec::new(),
        }
    }
}
