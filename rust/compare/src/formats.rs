//! The comparison of the five functions of the formats: sheets, levels and bundles.

use crate::comparison::{Call, Comparison, Outcome, NO_RESULT};
use crate::lent::Output;
use crate::rules::Rules;
use crate::tally::Function;
use inputs::{bundles, sheets};
use std::array;
use std::cell::Cell;
use zeldrupa::raw as product;

impl<R: Rules> Comparison<R> {
    /// Reads a sheet.
    pub fn read_sheet(&mut self, sheet: &[u8]) -> Outcome {
        let whole = R::read_sheet(sheet);
        let needs = whole.as_ref().map(|tables| (tables.tasks.len(), tables.links.len()));
        let needs = needs.unwrap_or((NO_RESULT, NO_RESULT));
        let lengths = (self.next_length(needs.0), self.next_length(needs.1));
        let mut tasks = Output::new(&mut self.random, lengths.0);
        let mut links = Output::new(&mut self.random, lengths.1);
        let work = self.next_work();
        let fitting = whole.and_then(|tables| tables.lent(lengths.0, lengths.1).map(|()| tables));
        let expected = self.with_work(work, fitting);

        let before = sheet.to_vec();
        let old_board = array::from_fn(|_| self.random.bits() as u32);
        let mut board = old_board;
        let area = self.work.lend(work);
        let answer = product::read_sheet(sheet, area, tasks.lend(), links.lend(), &mut board);

        let (right_tasks, right_links, right_board) = match &expected {
            Ok(tables) => (&tables.tasks[..], &tables.links[..], tables.board),
            Err(_) => (&[][..], &[][..], old_board),
        };
        let wrong = [
            ("the table of tasks", tasks.holds(right_tasks)),
            ("the table of links", links.holds(right_links)),
            ("the board", board == right_board),
            ("the input", sheet == before),
        ];
        let wrong = wrong.into_iter().find(|(_, right)| !right).map(|(name, _)| name);
        let inputs = &[("sheet", &sheet as _)];
        let call = Call { function: Function::ReadSheet, inputs, work: Some(work), answer };
        // Two tables have no one length, so the place of a result is 0.
        self.judge(call, expected.map(|_| 0), wrong)
    }

    /// Writes the sheet of these values.
    pub fn write_sheet(&mut self, values: &sheets::Sheet) -> Outcome {
        let sheets::Sheet { processors, limit, unpacking, cube, ref tasks, ref links } = *values;
        let before = (tasks.clone(), links.clone());
        self.one_output(
            Function::WriteSheet,
            &[
                ("processors", &processors),
                ("limit", &limit),
                ("unpacking", &unpacking),
                ("cube", &cube),
                ("tasks", &tasks.as_slice()),
                ("links", &links.as_slice()),
            ],
            &R::write_sheet(values),
            |work, out| {
                product::write_sheet(processors, limit, unpacking, cube, tasks, links, work, out)
            },
            |_| (*tasks != before.0 || *links != before.1).then_some("the input"),
        )
    }

    /// Writes the levels of a sheet's tasks.
    pub fn levels(&mut self, sheet: &[u8]) -> Outcome {
        let before = sheet.to_vec();
        self.one_output(
            Function::Levels,
            &[("sheet", &sheet)],
            &R::levels(sheet),
            |work, out| product::levels(sheet, work, out),
            |_| (sheet != before).then_some("the input"),
        )
    }

    /// Reads a bundle for a sheet.
    pub fn read_bundle(&mut self, sheet: &[u8], bundle: &[u8]) -> Outcome {
        let whole = R::read_bundle(sheet, bundle);
        let before = (sheet.to_vec(), bundle.to_vec());
        let old_claim = self.random.bits() as u32;
        let right_claim = whole.as_ref().map_or(old_claim, |(_, claim)| *claim);
        let claim = Cell::new(old_claim);
        self.one_output(
            Function::ReadBundle,
            &[("sheet", &sheet), ("bundle", &bundle)],
            &whole.map(|(values, _)| values),
            |work, out| {
                let mut lent = claim.get();
                let answer = product::read_bundle(sheet, bundle, work, out, &mut lent);
                claim.set(lent);
                answer
            },
            |result| {
                let right = if result { right_claim } else { old_claim };
                let claim_wrong = (claim.get() != right).then_some("the claim");
                claim_wrong.or((sheet != before.0 || bundle != before.1).then_some("the input"))
            },
        )
    }

    /// Writes the bundle of these values for a sheet.
    pub fn write_bundle(&mut self, sheet: &[u8], values: &bundles::Bundle) -> Outcome {
        let bundles::Bundle { ref commands, claim } = *values;
        let before = (sheet.to_vec(), commands.clone());
        self.one_output(
            Function::WriteBundle,
            &[("sheet", &sheet), ("commands", &commands.as_slice()), ("claim", &claim)],
            &R::write_bundle(sheet, values),
            |work, out| product::write_bundle(sheet, commands, claim, work, out),
            |_| (sheet != before.0 || *commands != before.1).then_some("the input"),
        )
    }
}
