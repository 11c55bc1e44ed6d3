//! What holds of an accepted bundle when jobs end early: every clause, on the literal rules.

use crate::comparison::{Comparison, Difference, Hex, Outcome};
use crate::rules::Literal;
use inputs::Random;
use literal::bundle::Bundle;
use literal::early::Run;
use literal::sheet::Sheet;
use zeldrupa::raw as product;

/// How early the steps of a list end.
#[derive(Clone, Copy)]
enum Times {
    /// As stated.
    Stated,
    /// Mostly as stated.
    SeldomEarly,
    /// Each a little earlier, or much, or at once.
    Early,
}

/// The lists by which a bundle is run.
const LISTS: [Times; 6] = [
    Times::Stated,
    Times::SeldomEarly,
    Times::SeldomEarly,
    Times::Early,
    Times::Early,
    Times::Early,
];

impl Comparison<Literal> {
    /// Checks a bundle, and if the product accepts it, runs it by lists of choices.
    pub fn early_ends(&mut self, sheet: &[u8], bundle: &[u8]) -> Outcome {
        self.check(sheet, bundle)?;
        if product::check(sheet, bundle, self.work.lend(self.work_length)).0 != 0 {
            return Ok(());
        }
        let read = Sheet::read(sheet).expect("the sheet of an accepted bundle");
        let accepted = Bundle::read(&read, bundle).expect("an accepted bundle");
        for times in LISTS {
            let mut run = Run::fresh(&read, &accepted);
            if let Err(clause) = to_the_end(&mut self.random, &mut run, times) {
                return Err(Difference(format!(
                    "with early ends it does not hold that {clause}\nsheet: {}\nbundle: {}\n",
                    sheet.hex(),
                    bundle.hex()
                )));
            }
            self.tally.count_early(run.machine.latest_clock() < accepted.claim);
        }
        Ok(())
    }
}

/// Makes choices until no command is left, some of which name no programme; or gives the clause that is
/// broken.
fn to_the_end(random: &mut Random, run: &mut Run, times: Times) -> Result<(), &'static str> {
    let (programmes, mut choice) = (run.machine.processors.len(), 0);
    while run.machine.left() > 0 {
        let early = match times {
            Times::Stated => 0,
            Times::SeldomEarly if !random.once_in(8) => 0,
            _ => random.pick(&[0, 1, 2, 5, 20, 100, 1000, 65_534, 65_535, u64::MAX]),
        };
        // Often the same again, so that one gets far ahead of the others.
        if random.once_in(2) {
            choice = random.below(programmes + 1) as u64;
        }
        run.choose(choice, early)?;
    }
    run.choose(choice, 1).map(|_| ())
}
