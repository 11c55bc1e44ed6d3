//! How often each function gave each answer and each rule of placing decided, and which of them have to
//! at least once.

use reference::bundle::{commands, Command};

/// A function of the interface.
#[derive(Clone, Copy, Debug, PartialEq, Eq)]
pub enum Function {
    ReadSheet,
    WriteSheet,
    Generate,
    Levels,
    Plan,
    Least,
    Listing,
    ReadBundle,
    WriteBundle,
    Check,
    Release,
    Drift,
    Better,
    Start,
    Run,
    Step,
    Left,
    Processor,
    Stamp,
    Weight,
}

/// Every function that is compared.
pub const FUNCTIONS: [Function; 20] = [
    Function::ReadSheet,
    Function::WriteSheet,
    Function::Generate,
    Function::Levels,
    Function::Plan,
    Function::Least,
    Function::Listing,
    Function::ReadBundle,
    Function::WriteBundle,
    Function::Check,
    Function::Release,
    Function::Drift,
    Function::Better,
    Function::Start,
    Function::Run,
    Function::Step,
    Function::Left,
    Function::Processor,
    Function::Stamp,
    Function::Weight,
];

/// How many functions stand side by side in the table of answers.
const COLUMNS: usize = 8;

impl Function {
    /// Its name without the prefix.
    pub fn name(self) -> &'static str {
        match self {
            Function::ReadSheet => "read_sheet",
            Function::WriteSheet => "write_sheet",
            Function::Generate => "generate",
            Function::Levels => "levels",
            Function::Plan => "plan",
            Function::Least => "least",
            Function::Listing => "listing",
            Function::ReadBundle => "read_bundle",
            Function::WriteBundle => "write_bundle",
            Function::Check => "check",
            Function::Release => "release",
            Function::Drift => "drift",
            Function::Better => "better",
            Function::Start => "start",
            Function::Run => "run",
            Function::Step => "step",
            Function::Left => "left",
            Function::Processor => "processor",
            Function::Stamp => "stamp",
            Function::Weight => "weight",
        }
    }

    /// Whether it can answer with this number.
    fn can_answer(self, number: u8) -> bool {
        let sheet = matches!(number, 0..=8 | 10 | 13);
        match self {
            Function::ReadSheet | Function::Levels => sheet || number == 12,
            Function::WriteSheet => matches!(number, 0 | 1 | 5..=8 | 10 | 12 | 13),
            Function::Generate => matches!(number, 0 | 6 | 12 | 13),
            Function::Plan => sheet || matches!(number, 11 | 12),
            Function::Least => sheet || matches!(number, 11 | 12 | 38),
            Function::Listing => matches!(number, 0 | 12 | 13),
            Function::ReadBundle | Function::WriteBundle => {
                sheet || number == 12 || matches!(number, 21..=25)
            }
            Function::Check => sheet || matches!(number, 21..=26 | 28..=33 | 37),
            Function::Release | Function::Drift => {
                sheet || matches!(number, 12 | 21..=26 | 28..=33 | 37)
            }
            Function::Better => sheet || number == 34,
            Function::Start | Function::Run => {
                sheet || matches!(number, 21..=26 | 28 | 31..=33 | 37)
            }
            Function::Step | Function::Left | Function::Processor | Function::Stamp => {
                matches!(number, 0 | 13)
            }
            Function::Weight => matches!(number, 0 | 35 | 36),
        }
    }
}

/// The greatest number of a refusal, and every number that an answer can have.
const GREATEST: u8 = 38;
const NUMBERS: std::ops::RangeInclusive<u8> = 0..=GREATEST;

/// The rules that give a task its processor: the steps, and the guard where it bars the processor that
/// the task would have joined or shared.
const STEPS: usize = 5;
const RULES: [&str; STEPS + 2] =
    ["join", "idle", "share", "open", "last resort", "the guard at join", "the guard at share"];

/// What boards have beside processors and a limit, and plans beside full numbers.
pub const DRESSED: usize = 3;
const DRESSES: [&str; DRESSED] =
    ["sheets with unpacking", "sheets of cubes", "plans that skip a number"];

/// What decides between two bundles: one is refused, the claims, the processors that run a task, the
/// bytes, or nothing.
pub const REASONS: [&str; 5] = ["acceptance", "claim", "processors", "bytes", "order of lending"];

/// The counts of answers, by function and number, of turns by the rule that decided, and of choices
/// between two bundles by what decided.
#[derive(Clone)]
pub struct Tally {
    counts: [[usize; GREATEST as usize + 1]; FUNCTIONS.len()],
    rules: [usize; RULES.len()],
    reasons: [usize; REASONS.len()],
    /// How many sheets that were planned have a `55` directly behind the board, and a `48` behind these,
    /// wrong ones among them; and how many plans have an empty programme.
    dressed: [usize; DRESSED],
    /// How many lists of choices with early ends were run to their ends, and how many of them were done
    /// before the claim.
    early: [usize; 2],
    /// How many bundles that were checked have a release, wrong ones among them.
    releases: usize,
    /// How many drifts were told of tasks, how many of them are above 0, and how many above the greatest
    /// work.
    drifts: [usize; 3],
}

impl Default for Tally {
    fn default() -> Self {
        Tally {
            counts: [[0; GREATEST as usize + 1]; FUNCTIONS.len()],
            rules: [0; RULES.len()],
            reasons: [0; REASONS.len()],
            dressed: [0; DRESSED],
            early: [0; 2],
            releases: 0,
            drifts: [0; 3],
        }
    }
}

impl Tally {
    /// Counts an answer.
    pub fn count(&mut self, function: Function, number: u8) {
        self.counts[function as usize][usize::from(number)] += 1;
    }

    /// Counts a sheet that is planned by what its board has.
    pub fn count_sheet(&mut self, sheet: &[u8]) {
        let unpacking = sheet.get(6) == Some(&0x55);
        let cube = sheet.get(if unpacking { 9 } else { 6 }) == Some(&0x48);
        self.dressed[0] += usize::from(unpacking);
        self.dressed[1] += usize::from(cube);
    }

    /// Counts a plan by the processors that run its tasks, if numbers below the highest are skipped.
    pub fn count_plan(&mut self, processors: impl Iterator<Item = usize>) {
        let used = processors.fold(0u32, |used, k| used | 1 << k);
        self.dressed[2] += usize::from(used & (used + 1) != 0);
    }

    /// What was counted so, with the fewest that there have to be.
    pub fn dressed(
        &self,
        fewest: [usize; DRESSED],
    ) -> impl Iterator<Item = (&'static str, usize, usize)> + '_ {
        let counts = DRESSES.iter().zip(&self.dressed).zip(fewest);
        counts.map(|((name, count), fewest)| (*name, *count, fewest))
    }

    /// Counts a list of choices with early ends, by whether it was done before the claim.
    pub fn count_early(&mut self, before: bool) {
        self.early[0] += 1;
        self.early[1] += usize::from(before);
    }

    /// The lists with early ends, and those that were done before the claim.
    pub fn early_ends(&self) -> [usize; 2] {
        self.early
    }

    /// Counts a bundle that is checked, if it has a release.
    pub fn count_bundle(&mut self, bundle: &[u8]) {
        let is_release = |command| matches!(command, Command::Release(_) | Command::Discard(_));
        self.releases += usize::from(commands(bundle).any(is_release));
    }

    /// The bundles that have a release.
    pub fn with_releases(&self) -> usize {
        self.releases
    }

    /// Counts how far a task may drift.
    pub fn count_drift(&mut self, drift: u32) {
        self.drifts[0] += 1;
        self.drifts[1] += usize::from(drift > 0);
        self.drifts[2] += usize::from(drift > u16::MAX.into());
    }

    /// The drifts, those above 0, and those above the greatest work.
    pub fn drifts(&self) -> [usize; 3] {
        self.drifts
    }

    /// Counts a turn of the planner by the step that decided, from 0, and whether the guard did at join
    /// and at share.
    pub fn count_turn(&mut self, step: usize, guarded: [bool; 2]) {
        self.rules[step] += 1;
        let guard = self.rules[STEPS..].iter_mut();
        guard.zip(guarded).for_each(|(count, guarded)| *count += usize::from(guarded));
    }

    /// Counts a choice between two bundles by the place of what decided among [`REASONS`].
    pub fn count_choice(&mut self, reason: usize) {
        self.reasons[reason] += 1;
    }

    /// Adds another tally's counts.
    pub fn add(&mut self, other: &Tally) {
        let counts = self.counts.as_flattened_mut().iter_mut();
        let counts = counts.chain(&mut self.rules).chain(&mut self.reasons).chain(&mut self.early);
        let counts = counts.chain(&mut self.drifts);
        let more = other.counts.as_flattened().iter().chain(&other.rules).chain(&other.reasons);
        let more = more.chain(&other.early).chain(&other.drifts);
        let (counts, more) = (counts.chain(&mut self.dressed), more.chain(&other.dressed));
        counts.zip(more).for_each(|(count, more)| *count += more);
        self.releases += other.releases;
    }

    /// All answers.
    pub fn calls(&self) -> usize {
        self.counts.as_flattened().iter().sum()
    }

    /// The answers of one function.
    pub fn calls_of(&self, function: Function) -> usize {
        self.counts[function as usize].iter().sum()
    }

    /// How often a function gave this number.
    pub fn answers(&self, function: Function, number: u8) -> usize {
        self.counts[function as usize][usize::from(number)]
    }

    /// Prints tables with a row for each number and a column for each function, and the rules.
    pub fn print(&self) {
        let all: [(&str, &[&str], &[usize]); 2] =
            [("turns", &RULES, &self.rules), ("choices", &REASONS, &self.reasons)];
        for (what, names, counts) in all {
            let named = names.iter().zip(counts).map(|(name, count)| format!("{name} {count}"));
            println!("{what} decided by {}", named.collect::<Vec<_>>().join(", "));
        }
        for (name, count) in DRESSES.iter().zip(self.dressed) {
            println!("{name} {count}");
        }
        let [lists, before] = self.early;
        println!("lists with early ends {lists}, done before the claim {before}");
        println!("bundles with releases {}", self.releases);
        let [drifts, some, far] = self.drifts;
        println!("drifts {drifts}, above 0 {some}, above the greatest work {far}");
        for functions in FUNCTIONS.chunks(COLUMNS) {
            let row = |name: &str, cell: &dyn Fn(Function) -> String| {
                let cells: String = functions.iter().map(|&f| format!("{:>14}", cell(f))).collect();
                println!("{name:>7}{cells}");
            };
            row("", &|function| function.name().into());
            row("calls", &|function| self.calls_of(function).to_string());
            for number in NUMBERS {
                if functions.iter().any(|function| function.can_answer(number)) {
                    row(&number.to_string(), &|function| match function.can_answer(number) {
                        true => self.answers(function, number).to_string(),
                        false => "-".into(),
                    });
                }
            }
        }
    }

    /// What never came, in words: answers that a function can give, and rules that can decide.
    pub fn missed(&self) -> Vec<String> {
        let all = FUNCTIONS.into_iter().flat_map(|f| NUMBERS.map(move |number| (f, number)));
        let answers =
            all.filter(|&(f, number)| f.can_answer(number) && self.answers(f, number) == 0);
        let answers = answers.map(|(f, number)| format!("{} never answered {number}", f.name()));
        let deciding = RULES.iter().chain(&REASONS).zip(self.rules.iter().chain(&self.reasons));
        let never = deciding.filter(|&(_, &count)| count == 0);
        answers.chain(never.map(|(name, _)| format!("{name} never decided"))).collect()
    }
}
