//! The comparison of the checker, the choice between two bundles and the stepping machine.

use crate::comparison::{Call, Comparison, Difference, Hex, Input, Outcome};
use crate::rules::{Answered, Machine, Rules};
use crate::tally::Function;
use inputs::Random;
use literal::refusal::area;
use std::ptr;
use zeldrupa::raw::{self as product, Answer};

/// The longest list of choices.
const MOST_CHOICES: usize = 6000;
/// Numbers that name no programme and no link, some of which would if they lost their high bits.
const NO_NUMBERS: [u64; 8] =
    [1024, 65_535, 65_536, 1 << 32, (1 << 32) + 1, 1 << 63, u64::MAX - 1, u64::MAX];

/// A sheet and a bundle, both any bytes.
#[derive(Clone, Copy)]
struct Pair<'a> {
    sheet: &'a [u8],
    bundle: &'a [u8],
}

impl Pair<'_> {
    /// What there is to show of the pair and of these choices.
    fn shown<'a>(&'a self, choices: &'a dyn Hex) -> [Input<'a>; 3] {
        [("sheet", &self.sheet), ("bundle", &self.bundle), ("choices", choices)]
    }
}

/// A machine of the product, whose state is in the comparison's area, beside that of the rules.
struct Session<'a> {
    pair: Pair<'a>,
    machine: &'a mut dyn Machine,
    /// The length of the state's area.
    state: usize,
    /// The choices so far.
    choices: Vec<u64>,
}

impl<R: Rules> Comparison<R> {
    /// Checks a bundle for a sheet.
    pub fn check(&mut self, sheet: &[u8], bundle: &[u8]) -> Outcome {
        self.tally.count_bundle(bundle);
        let work = self.next_work();
        let right = self.with_work(work, R::check(sheet, bundle)).map(|()| 0);
        let before = (sheet.to_vec(), bundle.to_vec());
        let answer = product::check(sheet, bundle, self.work.lend(work));
        let wrong = (sheet != before.0 || bundle != before.1).then_some("the input");
        let inputs: &[Input] = &[("sheet", &sheet), ("bundle", &bundle)];
        let call = Call { function: Function::Check, inputs, work: Some(work), answer };
        self.judge(call, right, wrong)
    }

    /// Chooses between two bundles for a sheet: the answer, and that the very slice is handed back.
    pub fn better(&mut self, sheet: &[u8], first: &[u8], second: &[u8]) -> Outcome {
        let work = self.next_work();
        let kept = R::better(sheet, first, second, &mut self.tally);
        let right = self.with_work(work, kept);
        let before = [sheet, first, second].map(<[u8]>::to_vec);
        let (answer, kept) = product::better(sheet, first, second, self.work.lend(work));
        let wrong = match ptr::eq(kept, right.unwrap_or(&first[..0])) {
            true => ([sheet, first, second] != before).then_some("the input"),
            false => Some("what is handed back"),
        };
        let inputs: &[Input] = &[("sheet", &sheet), ("first", &first), ("second", &second)];
        let call = Call { function: Function::Better, inputs, work: Some(work), answer };
        self.judge(call, right.map(|kept| kept.len() as u64), wrong)
    }

    /// Starts the machine and makes choices one by one, then the same choices in one run.
    pub fn machine(&mut self, sheet: &[u8], bundle: &[u8]) -> Outcome {
        let pair = Pair { sheet, bundle };
        let choices = R::start(sheet, bundle, |machine| self.steps(pair, machine))?;
        R::start(sheet, bundle, |machine| self.run(pair, machine, choices))
    }

    /// Starts the machine and makes lists of choices, looking at all of it after each; gives the
    /// choices that were made, or some where it does not start.
    fn steps(
        &mut self,
        pair: Pair,
        machine: Answered<&mut dyn Machine>,
    ) -> Result<Vec<u64>, Difference> {
        let fresh = machine.as_ref().map(|_| 0).map_err(|&refusal| refusal);
        let state = self.begin(Function::Start, pair, &[], fresh, |work, state| {
            product::start(pair.sheet, pair.bundle, work, state)
        })?;
        let (Ok(machine), Some(state)) = (machine, state) else {
            return Ok(choices(&mut self.random, 3, 10));
        };
        let mut session = Session { pair, machine, state, choices: Vec::new() };
        self.look(&session)?;
        for _ in 0..self.random.within(1..=3) {
            let most = 3 * session.machine.left() as usize + 8;
            let count = self.random.below(most).min(MOST_CHOICES);
            for choice in choices(&mut self.random, session.machine.programmes(), count) {
                self.step(&mut session, choice)?;
                if self.random.once_in(64) {
                    self.look(&session)?;
                }
            }
            self.look(&session)?;
        }
        if self.random.once_in(2) {
            self.run_out(&mut session)?;
        }
        if self.random.once_in(8) {
            self.short_states(&session)?;
        }
        Ok(session.choices)
    }

    /// Makes the choices in one run and looks at the end of it.
    fn run(
        &mut self,
        pair: Pair,
        mut machine: Answered<&mut dyn Machine>,
        choices: Vec<u64>,
    ) -> Outcome {
        // What names no programme still names none.
        let bytes: Vec<u8> =
            choices.iter().map(|&choice| u8::try_from(choice).unwrap_or(u8::MAX)).collect();
        let stepped = machine.as_mut().map(|machine| machine.run(&bytes));
        let stepped = stepped.map_err(|refusal| *refusal);
        let state = self.begin(Function::Run, pair, &bytes, stepped, |work, state| {
            product::run(pair.sheet, pair.bundle, &bytes, work, state)
        })?;
        match (machine, state) {
            (Ok(machine), Some(state)) => self.look(&Session { pair, machine, state, choices }),
            _ => Ok(()),
        }
    }

    /// Makes and judges a call that starts a machine; gives the length of the state's area if it did.
    fn begin(
        &mut self,
        function: Function,
        pair: Pair,
        choices: &[u8],
        right: Answered<u64>,
        call: impl FnOnce(&mut [u32], &mut [u32]) -> Answer,
    ) -> Result<Option<usize>, Difference> {
        let (work, state) = (self.next_work(), self.next_work());
        let right = self.with_work(work, self.with_work(state, right));
        let before = (pair.sheet.to_vec(), pair.bundle.to_vec());
        let answer = call(self.work.lend(work), self.state.lend(state));
        let state_right = match right {
            Ok(_) => self.state.around_untouched(state),
            Err(_) => self.state.untouched(state),
        };
        let wrong = match state_right {
            true => (pair.sheet != before.0 || pair.bundle != before.1).then_some("the input"),
            false => Some("the state's area"),
        };
        let inputs = &pair.shown(&choices);
        self.judge(Call { function, inputs, work: Some(work), answer }, right, wrong)?;
        Ok(right.is_ok().then_some(state))
    }

    /// Makes one choice; whether it stepped.
    fn step(&mut self, session: &mut Session, choice: u64) -> Result<bool, Difference> {
        session.choices.push(choice);
        let stepped = session.machine.step(choice);
        // All words are compared only now and then, since there are many.
        let before =
            (!stepped && self.random.once_in(32)).then(|| self.state.kept(session.state).to_vec());
        let Pair { sheet, bundle } = session.pair;
        let answer = product::step(sheet, bundle, self.state.kept(session.state), choice);
        let changed = before.is_some_and(|before| before != self.state.kept(session.state));
        let wrong = changed.then_some("the state");
        self.judge_state(Function::Step, session, answer, Ok(stepped.into()), wrong)?;
        Ok(stepped)
    }

    /// Lets each processor step in turn until nobody can.
    fn run_out(&mut self, session: &mut Session) -> Outcome {
        let mut stepped = true;
        while stepped {
            stepped = false;
            for k in 0..session.machine.programmes() {
                stepped |= self.step(session, k as u64)?;
            }
        }
        self.look(session)
    }

    /// Looks at the commands left, every processor and every stamp, and at some that do not exist.
    fn look(&mut self, session: &Session) -> Outcome {
        let length = session.state;
        let around = (!self.state.around_untouched(length)).then_some("what is around the state");
        let answer = product::left(session.pair.bundle, self.state.kept(length));
        let left = session.machine.left();
        self.judge_state(Function::Left, session, answer, Ok(left), around)?;
        let beyond = self.random.pick(&NO_NUMBERS);
        for k in (0..session.machine.programmes() as u64 + 2).chain([beyond]) {
            let mut numbers = [0; 3].map(|_: u32| self.random.bits() as u32);
            let state = self.state.kept(length);
            let answer = product::processor(session.pair.bundle, state, k, &mut numbers);
            let wrong = (numbers != session.machine.processor(k)).then_some("the processor");
            self.judge_state(Function::Processor, session, answer, Ok(0), wrong)?;
        }
        for link in (0..session.machine.links() as u64 + 2).chain([beyond]) {
            let answer = product::stamp(self.state.kept(length), link);
            let right = Ok(session.machine.stamp(link));
            self.judge_state(Function::Stamp, session, answer, right, None)?;
        }
        Ok(())
    }

    /// Lends the state at a length below the fixed one (13).
    fn short_states(&mut self, session: &Session) -> Outcome {
        let any = self.random.below(self.work_length);
        for length in [0, any, self.work_length - 1] {
            let right = area(self.work_length, length).map(|()| 0);
            let Pair { sheet, bundle } = session.pair;
            let before = self.state.kept(session.state).to_vec();
            let mut numbers = [7; 3];
            let state = self.state.kept(length);
            let answers = [
                (Function::Step, product::step(sheet, bundle, state, 0)),
                (Function::Left, product::left(bundle, state)),
                (Function::Processor, product::processor(bundle, state, 0, &mut numbers)),
                (Function::Stamp, product::stamp(state, 0)),
            ];
            let changed = before != self.state.kept(session.state) || numbers != [7; 3];
            for (function, answer) in answers {
                let wrong = changed.then_some("the state or the processor");
                self.judge_state(function, session, answer, right, wrong)?;
            }
        }
        Ok(())
    }

    /// Judges a call that has no work area.
    fn judge_state(
        &mut self,
        function: Function,
        session: &Session,
        answer: Answer,
        right: Answered<u64>,
        wrong: Option<&'static str>,
    ) -> Outcome {
        let choices = session.choices.as_slice();
        let inputs = &session.pair.shown(&choices);
        self.judge(Call { function, inputs, work: None, answer }, right, wrong)
    }

    /// Steps on words that need not keep a state: every call ends, and a choice that says 0 has
    /// changed no word. What else it gives is open.
    pub fn any_words(
        &mut self,
        sheet: &[u8],
        bundle: &[u8],
        words: &[u32],
        steps: usize,
    ) -> Outcome {
        let pair = Pair { sheet, bundle };
        let length = words.len();
        self.state.lend(length).copy_from_slice(words);
        for choice in choices(&mut self.random, 16, steps) {
            let before = self.state.kept(length).to_vec();
            let stepped = product::step(sheet, bundle, self.state.kept(length), choice);
            let state = self.state.kept(length);
            let kept = stepped.1 > 0 || before == state;
            let left = product::left(bundle, state);
            let processor = product::processor(bundle, state, choice, &mut [0; 3]);
            let stamp = product::stamp(state, choice);
            let wrong = match self.state.around_untouched(length) {
                true => (!kept).then_some("the state"),
                false => Some("what is around the state"),
            };
            for (function, answer, right) in [
                (Function::Step, stepped, stepped.1.min(1)),
                (Function::Left, left, left.1),
                (Function::Processor, processor, 0),
                (Function::Stamp, stamp, stamp.1),
            ] {
                let inputs = &pair.shown(&choice);
                self.judge(Call { function, inputs, work: None, answer }, Ok(right), wrong)?;
            }
        }
        Ok(())
    }
}

/// Choices for so many programmes: mostly their numbers, often one several times, and some that
/// name none; without programmes all of them do.
fn choices(random: &mut Random, programmes: usize, count: usize) -> Vec<u64> {
    let mut last = 0;
    (0..count)
        .map(|_| match random.below(16) {
            0 => random.pick(&NO_NUMBERS),
            1 => (programmes + random.below(300)) as u64,
            2..=7 => last,
            _ => {
                last = random.below(programmes.max(1)) as u64;
                last
            }
        })
        .collect()
}
