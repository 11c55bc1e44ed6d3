//! The comparison of how far each job's time may drift, and what holds of it.

use crate::comparison::{Comparison, Difference, Hex, Outcome};
use crate::rules::{Literal, Rules};
use crate::tally::Function;
use inputs::Random;
use literal::bundle::Bundle;
use literal::drift::{finishing_time, raised};
use literal::sheet::Sheet;
use zeldrupa::raw as product;

impl<R: Rules> Comparison<R> {
    /// Tells how far each task of a bundle may drift.
    pub fn drift(&mut self, sheet: &[u8], bundle: &[u8]) -> Outcome {
        let before = (sheet.to_vec(), bundle.to_vec());
        let report = R::drift(sheet, bundle);
        for &drift in report.iter().flat_map(|report| report.as_chunks().0) {
            self.tally.count_drift(u32::from_le_bytes(drift));
        }
        self.one_output(
            Function::Drift,
            &[("sheet", &sheet), ("bundle", &bundle)],
            &report,
            |work, out| product::drift(sheet, bundle, work, out),
            |_| (sheet != before.0 || bundle != before.1).then_some("the input"),
        )
    }
}

impl Comparison<Literal> {
    /// The same; and a work that is raised by any d moves the finishing time by no more than d, and not
    /// at all exactly if d is at most the drift.
    pub fn drift_and_raise(&mut self, sheet: &[u8], bundle: &[u8]) -> Outcome {
        self.drift(sheet, bundle)?;
        let Ok(report) = Literal::drift(sheet, bundle) else { return Ok(()) };
        let read = Sheet::read(sheet).expect("the sheet of an accepted bundle");
        let accepted = Bundle::read(&read, bundle).expect("an accepted bundle");
        for (task, &drift) in report.as_chunks().0.iter().enumerate() {
            let drift = u32::from_le_bytes(drift).into();
            for d in some(&mut self.random, drift) {
                let finish = finishing_time(&raised(&read, task, d), &accepted);
                let moved = finish.checked_sub(accepted.claim);
                if !moved.is_some_and(|moved| moved <= d && (moved == 0) == (d <= drift)) {
                    return Err(Difference(format!(
                        "task {task} drifts by {drift}, and by {d} it ends at {finish}\nsheet: {}\n\
                         bundle: {}\n",
                        sheet.hex(),
                        bundle.hex()
                    )));
                }
            }
        }
        Ok(())
    }
}

/// Times around a drift, below it and far above it.
fn some(random: &mut Random, drift: u64) -> [u64; 5] {
    let [below, above] = [drift as usize + 1, 1 << 40].map(|most| random.below(most) as u64);
    [below, drift, drift + 1, drift + 1 + above % 100, drift + 1 + above]
}
