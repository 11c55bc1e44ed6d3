//! The comparison of a formula's weight.

use crate::comparison::{Call, Comparison, Outcome};
use crate::rules::Rules;
use crate::tally::Function;
use zeldrupa::raw as product;

impl<R: Rules> Comparison<R> {
    /// Weighs a formula.
    pub fn weight(&mut self, text: &[u8], letters: &[u32]) -> Outcome {
        let before = (text.to_vec(), letters.to_vec());
        let answer = product::weight(text, letters);
        let wrong = (text != before.0 || letters != before.1).then_some("the input");
        let inputs = &[("text", &text as _), ("letters", &letters as _)];
        let call = Call { function: Function::Weight, inputs, work: None, answer };
        // The weight is the place.
        self.judge(call, R::weight(text, letters).map(u64::from), wrong)
    }
}
