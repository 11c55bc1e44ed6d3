//! One call of the product against the rules: number, place, and every lent byte afterwards.

use crate::lent::{Area, Element, Output};
use crate::rules::{Answered, Fast, Rules};
use crate::tally::{Function, Tally};
use inputs::Random;
use literal::refusal::{area, output};
use std::marker::PhantomData;
use zeldrupa::raw::{self as product, Answer};

/// The most words that an area has beyond the fixed length.
const LONGEST_EXTRA: usize = 4096;
/// The result's length that outputs are made for where there is none.
pub const NO_RESULT: usize = 24;

/// The number of a work area that is too short.
pub const SHORT_WORK_AREA: u8 = 13;

/// A call in which the product and the rules differ, in words.
pub struct Difference(pub String);

/// Whether all agreed.
pub type Outcome = Result<(), Difference>;

/// An input of a call with its name, to be shown if there is a difference.
pub type Input<'a> = (&'static str, &'a dyn Hex);

/// A call of the product.
pub struct Call<'a> {
    pub function: Function,
    pub inputs: &'a [Input<'a>],
    /// The length of its work area, if it has one.
    pub work: Option<usize>,
    pub answer: Answer,
}

/// What is kept from call to call, against these rules.
pub struct Comparison<R = Fast> {
    pub random: Random,
    pub tally: Tally,
    pub work: Area,
    /// The area of a machine's state.
    pub state: Area,
    /// The fixed length of both areas.
    pub work_length: usize,
    rules: PhantomData<R>,
}

impl<R: Rules> Comparison<R> {
    /// A comparison that makes the same calls for the same seed.
    pub fn new(seed: u64) -> Self {
        let mut random = Random::new(seed);
        let work_length = product::work_length();
        assert!(work_length <= 1_048_576, "the fixed length {work_length} is too long");
        let mut area = || Area::new(&mut random, work_length + LONGEST_EXTRA);
        let (work, state) = (area(), area());
        Comparison { random, tally: Tally::default(), work, state, work_length, rules: PhantomData }
    }

    /// The length of the next work area or state: the fixed one, a longer one, or now and then a shorter one.
    pub fn next_work(&mut self) -> usize {
        let random = &mut self.random;
        match random.below(64) {
            0 => self.work_length - 1,
            1 => random.pick(&[0, 1, self.work_length / 2]),
            2 => random.below(self.work_length),
            3 => self.work_length + random.within(1..=LONGEST_EXTRA),
            4..=31 => self.work_length + random.within(1..=40),
            _ => self.work_length,
        }
    }

    /// The length of the next output for a result of length `need`: fitting, longer, one short, none
    /// or any shorter.
    pub fn next_length(&mut self, need: usize) -> usize {
        let random = &mut self.random;
        match random.below(16) {
            0 => need.saturating_sub(1),
            1 => random.pick(&[0, need / 2, need + 1]),
            2 => random.below(need + 1),
            3..=8 => need + random.within(1..=40),
            _ => need,
        }
    }

    /// The right answer in a call with a work area or a state of this length (13).
    pub fn with_work<T>(&self, work: usize, answer: Answered<T>) -> Answered<T> {
        area(self.work_length, work).and(answer)
    }

    /// Makes and judges a call with one output. `whole` is the rules' answer to a caller who
    /// lends enough; `others` names an input, or an output beside this one, that is not as it
    /// should be where there is a result or where there is none.
    pub fn one_output<T: Element>(
        &mut self,
        function: Function,
        inputs: &[Input],
        whole: &Answered<Vec<T>>,
        call: impl FnOnce(&mut [u32], &mut [T]) -> Answer,
        others: impl FnOnce(bool) -> Option<&'static str>,
    ) -> Outcome {
        let work = self.next_work();
        let length = self.next_length(whole.as_ref().map_or(NO_RESULT, Vec::len));
        let mut out = Output::new(&mut self.random, length);
        let whole = whole.as_ref().map_err(|&refusal| refusal);
        let fitting = whole.and_then(|result| output(result.len(), length).map(|()| result));
        let expected = self.with_work(work, fitting);

        let answer = call(self.work.lend(work), out.lend());

        let result = expected.map_or(&[][..], |result| result);
        let wrong = match out.holds(result) {
            true => others(expected.is_ok()),
            false => Some("the output"),
        };
        let right = expected.map(|result| result.len() as u64);
        self.judge(Call { function, inputs, work: Some(work), answer }, right, wrong)
    }

    /// Counts a call's answer and holds it against the right one, where a result has its place, and
    /// the work area against what it must be; `wrong` names another thing that is not as it should be.
    pub fn judge(
        &mut self,
        call: Call,
        right: Answered<u64>,
        wrong: Option<&'static str>,
    ) -> Outcome {
        let Call { function, inputs, work, answer } = call;
        let right =
            right.map_or_else(|refusal| (refusal.number, refusal.place), |place| (0, place));
        let work_right = work.is_none_or(|work| match right.0 {
            SHORT_WORK_AREA => self.work.untouched(work),
            _ => self.work.cleared(work),
        });
        let wrong = match answer == right {
            false => Some("the answer"),
            true if !work_right => Some("the work area"),
            true => wrong,
        };
        let Some(wrong) = wrong else {
            self.tally.count(function, right.0);
            return Ok(());
        };
        let mut text = format!(
            "zeldrupa_{}: {wrong} is not as it should be\n\
             number and place: {answer:?} from the product, {right:?} from {}\n\
             work area: {} words\n",
            function.name(),
            R::NAME,
            work.unwrap_or(0),
        );
        for (name, input) in inputs {
            text += &format!("{name}: {}\n", input.hex());
        }
        Err(Difference(text))
    }
}

/// An input that can be shown in hexadecimal.
pub trait Hex {
    fn hex(&self) -> String;
}

impl Hex for &[u8] {
    fn hex(&self) -> String {
        self.iter().map(|byte| format!("{byte:02X} ")).collect()
    }
}

impl Hex for &[u16] {
    fn hex(&self) -> String {
        self.iter().map(|value| format!("{value:04X} ")).collect()
    }
}

impl Hex for &[u32] {
    fn hex(&self) -> String {
        self.iter().map(|value| format!("{value:08X} ")).collect()
    }
}

impl Hex for &[u64] {
    fn hex(&self) -> String {
        self.iter().map(|value| format!("{value:X} ")).collect()
    }
}

impl Hex for u8 {
    fn hex(&self) -> String {
        format!("{self:02X}")
    }
}

impl Hex for u16 {
    fn hex(&self) -> String {
        format!("{self:04X}")
    }
}

impl Hex for u32 {
    fn hex(&self) -> String {
        format!("{self:08X}")
    }
}

impl Hex for u64 {
    fn hex(&self) -> String {
        format!("{self:X}")
    }
}
