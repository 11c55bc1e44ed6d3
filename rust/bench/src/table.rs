//! The tables that are measured: calls on cases, a line for each.

use crate::calls::{self, Measure, CALLS, CHECK, DRIFT, GENERATE, LEAST, MOST_OF_DRIFT, ONE_STEP};
use crate::calls::{PLAN, REFUSAL, RELEASE, START, WEIGHT};
use crate::cases::{self, Case, Kind};

/// The numbers of tasks by which growth is shown.
const SIZES: [usize; 5] = [16, 32, 64, 128, 256];

/// Cases, and the calls on each of them.
pub struct Table {
    pub name: &'static str,
    pub cases: Vec<Case>,
    calls: Vec<(&'static str, Measure)>,
}

/// A call on a case.
pub struct Line<'a> {
    pub case: &'a Case,
    pub call: &'static str,
    pub measure: Measure,
}

impl Line<'_> {
    /// The greatest ratio that it should have.
    pub fn most(&self) -> f64 {
        if self.call == DRIFT {
            MOST_OF_DRIFT
        } else {
            1.0
        }
    }
}

impl Table {
    /// Every call on every shape of sheet.
    pub fn of_calls() -> Table {
        Table { name: "calls", cases: cases::all(), calls: CALLS.to_vec() }
    }

    /// Plan and check by the number of tasks.
    pub fn of_growth() -> Table {
        let calls = vec![(PLAN, calls::plan as Measure), (CHECK, calls::check)];
        Table { name: "growth", cases: SIZES.map(cases::of_size).into(), calls }
    }

    /// The table of this name.
    pub fn named(name: &str) -> Option<Table> {
        match name {
            "calls" => Some(Table::of_calls()),
            "growth" => Some(Table::of_growth()),
            _ => None,
        }
    }

    /// Its lines, case by case, but for calls that need a command where there is none; formulas are
    /// weighed, and nothing else is; of sheets of six tasks the least time is found; test loads are made,
    /// planned and checked; bundles with releases are checked, passed, started and stepped, and their
    /// drifts told.
    pub fn lines(&self) -> impl Iterator<Item = Line<'_>> {
        let of = |case| self.calls.iter().map(move |&(call, measure)| Line { case, call, measure });
        let lines = self.cases.iter().flat_map(of);
        let fitting = lines.filter(|line| match line.case.kind {
            Kind::Sheets => ![LEAST, WEIGHT, GENERATE].contains(&line.call),
            Kind::Released => [CHECK, RELEASE, DRIFT, START, ONE_STEP].contains(&line.call),
            Kind::Small => line.call == LEAST,
            Kind::Formulas => line.call == WEIGHT,
            Kind::Loads => [GENERATE, PLAN, CHECK].contains(&line.call),
        });
        fitting.filter(|line| line.case.has_commands() || ![REFUSAL, ONE_STEP].contains(&line.call))
    }
}
