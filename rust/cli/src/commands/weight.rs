//! `weight`: what a formula gives with values of its letters.

use super::Command;
use crate::answer::{Answer, Fault};
use crate::arguments::Arguments;
use crate::loader::Loader;
use crate::text::{Letters, Line, NO_FORMULA};
use zeldrupa::{weight, Refusal};

pub const COMMAND: Command = Command {
    name: "weight",
    usage: "FORMULA [--let LETTERS]",
    files: 1..=1,
    options: &[("--let", "the values of the letters, as n=1024,b=64")],
    brief: "the weight of a formula, as a task's work may be given",
    full: "\
The weight of a formula: decimal numbers of one to ten digits, letters a to z, +, * and parentheses,
without spaces. Products bind tighter than sums, and equals group from the left. At most 32
parentheses are open together, no number or partial result is above 4294967295, and the weight is
1 to 65535. Put a formula with parentheses or * in quotes, for the shell.",
    answer,
};

fn answer(_: &mut Loader, arguments: &Arguments) -> Result<Answer, Fault> {
    let formula = arguments.files[0].to_string_lossy();
    let mut letters = Letters::default();
    if let Some(given) = arguments.text("--let") {
        let read = Line::new(1, &given).and_then(|mut line| {
            letters.read(&mut line)?;
            line.done()
        });
        read.map_err(|problem| COMMAND.misused(&format!("--let {given}: {}", problem.told)))?;
    }
    let values = letters.values();
    let told = |weight: u16| Answer::text(format!("{weight}\n"));
    let refused = |refusal: Refusal| {
        let explained = refusal.explain_formula(formula.as_bytes(), &values);
        let (number, place) = (refusal.number(), refusal.place());
        Fault::Refused(format!("REFUSED {number} {place}\n{explained}\n"))
    };
    match weight(formula.as_bytes(), &values) {
        Err(refusal) if refusal.number() == NO_FORMULA => Err(refused(refusal)),
        answer => match letters.missing(&formula) {
            None => answer.map(told).map_err(refused),
            Some((_, letter)) => {
                Err(COMMAND.misused(&format!("has no value for {letter}: give --let {letter}=..")))
            }
        },
    }
}
