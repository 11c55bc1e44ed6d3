//! The comparison of the sheets that seeds give.

use crate::comparison::{Comparison, Outcome};
use crate::rules::Rules;
use crate::tally::Function;
use inputs::loads::Load;
use zeldrupa::raw as product;

impl<R: Rules> Comparison<R> {
    /// Writes the sheet of a seed; gives it to what comes next, if there is one.
    pub fn generate(
        &mut self,
        load: Load,
        then: impl FnOnce(&mut Self, &[u8]) -> Outcome,
    ) -> Outcome {
        let Load { seed, tasks, tries, processors, limit } = load;
        let whole = R::generate(load);
        self.one_output(
            Function::Generate,
            &[
                ("seed", &seed),
                ("tasks", &tasks),
                ("tries", &tries),
                ("processors", &processors),
                ("limit", &limit),
            ],
            &whole,
            |work, out| product::generate(seed, tasks, tries, processors, limit, work, out),
            |_| None,
        )?;
        match whole {
            Ok(sheet) => then(self, &sheet),
            Err(_) => Ok(()),
        }
    }
}
