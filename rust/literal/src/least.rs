//! The least time for small sheets: "find a bundle whose claim is least among all accepted bundles in the
//! planner's written form (receives in rising link number directly before each task, sends likewise
//! directly after, no empty programme)".

use crate::better::better;
use crate::bundle::Bundle;
use crate::checker::check;
use crate::refusal::Refusal;
use crate::sheet::Sheet;

/// An arrangement: the tasks of each programme, in their order.
pub type Arrangement = Vec<Vec<usize>>;

/// The bytes of the best accepted bundle in the planner's written form.
pub fn least(sheet: &Sheet) -> Result<Vec<u8>, Refusal> {
    let tasks = sheet.tasks.len();
    // "38 for a seventh task or a sheet with `48`, place the task count, after 10."
    if tasks > 6 || sheet.cube {
        return Err(Refusal::new(38, tasks));
    }
    let arrangements = arrangements(sheet.processors, (0..tasks).collect());
    let accepted = arrangements.iter().filter_map(|arrangement| accepted(sheet, arrangement));
    // "Among equals C-12's order picks", which begins with the smaller claim.
    let best = accepted.reduce(|best, next| match better(sheet, &best, &next) {
        Ok((kept, _)) => kept.to_vec(),
        Err(_) => unreachable!("both are accepted"),
    });
    // "Here 11 is given exactly if no bundle without releases is accepted; the task as place is the last
    // one."
    best.ok_or_else(|| Refusal::new(11, tasks - 1))
}

/// Every arrangement of these tasks in at most so many programmes, none of which is empty.
fn arrangements(processors: usize, tasks: Vec<usize>) -> Vec<Arrangement> {
    if tasks.is_empty() {
        return vec![Vec::new()];
    }
    let mut all = Vec::new();
    for &last in &tasks {
        let others = tasks.iter().copied().filter(|&task| task != last).collect();
        // The last task stands behind others in the last programme, or alone in one more.
        for before in arrangements(processors, others) {
            if let Some((programme, rest)) = before.split_last() {
                let longer = [&programme[..], &[last]].concat();
                all.push([rest, &[longer]].concat());
            }
            if before.len() < processors {
                all.push([&before[..], &[vec![last]]].concat());
            }
        }
    }
    all
}

/// The bytes of an arrangement's bundle, if some claim is accepted: "claim is not the latest clock" is 30
/// with "that clock".
fn accepted(sheet: &Sheet, arrangement: &Arrangement) -> Option<Vec<u8>> {
    let verdict = |claim| {
        let bytes = Bundle::written(sheet, arrangement, claim);
        let bundle = Bundle::read(sheet, &bytes).expect("the form of a plan");
        check(sheet, &bundle).map(|()| bytes)
    };
    match verdict(0) {
        Err(Refusal { number: 30, place }) => verdict(place).ok(),
        other => other.ok(),
    }
}
