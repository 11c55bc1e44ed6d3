//! The listing: "Fields are decimal, one space between; each line ends with byte `0A`."

use crate::bundle::latest_finish;
use crate::placing::Placed;
use crate::refusal::Refusal;

/// The lines of a plan or of a refusal.
pub fn lines(plan: &Result<Vec<Placed>, Refusal>) -> String {
    match plan {
        Ok(placed) => plan_lines(placed),
        // "A refusal prints `REFUSED`, number, place."
        Err(refusal) => format!("REFUSED {} {}\n", refusal.number, refusal.place),
    }
}

/// "Line one: `PLAN`, processors opened, claim", where "`PLAN` counts processors that run a task, on
/// every sheet". "Then a line for each task in number order: task, processor, start, finish."
fn plan_lines(placed: &[Placed]) -> String {
    let running = (0..16).filter(|&k| placed.iter().any(|placed| placed.processor == k)).count();
    let mut lines = format!("PLAN {running} {}\n", latest_finish(placed));
    for task in 0..placed.len() {
        for Placed { processor, start, finish, .. } in placed.iter().filter(|p| p.task == task) {
            lines += &format!("{task} {processor} {start} {finish}\n");
        }
    }
    lines
}
