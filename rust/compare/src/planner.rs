//! The comparison of the planner, the listing and the least time.

use crate::comparison::{Comparison, Outcome};
use crate::rules::Rules;
use crate::tally::Function;
use zeldrupa::raw as product;

impl<R: Rules> Comparison<R> {
    /// Plans a sheet, and lists its plan or its refusal.
    pub fn plan(&mut self, sheet: &[u8]) -> Outcome {
        let before = sheet.to_vec();
        self.tally.count_sheet(sheet);
        let (bundle, lines) = R::plan(sheet, &mut self.tally);
        self.one_output(
            Function::Plan,
            &[("sheet", &sheet)],
            &bundle,
            |work, out| product::plan(sheet, work, out),
            |_| (sheet != before).then_some("the input"),
        )?;
        self.one_output(
            Function::Listing,
            &[("sheet", &sheet)],
            &Ok(lines),
            |work, out| product::listing(sheet, work, out),
            |_| (sheet != before).then_some("the input"),
        )
    }

    /// The best bundle of a sheet, if that is small.
    pub fn least(&mut self, sheet: &[u8]) -> Outcome {
        let before = sheet.to_vec();
        self.one_output(
            Function::Least,
            &[("sheet", &sheet)],
            &R::least(sheet),
            |work, out| product::least(sheet, work, out),
            |_| (sheet != before).then_some("the input"),
        )
    }
}
