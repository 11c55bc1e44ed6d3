//! The better of two bundles: "Check both and hand back the better one, as the caller's own bytes
//! and not a copy."

use crate::bundle::{Action, Bundle};
use crate::checker;
use crate::refusal::Refusal;
use crate::sheet::Sheet;
use std::cmp::Ordering;

/// An accepted bundle and its bytes.
struct Accepted<'a> {
    bundle: Bundle,
    bytes: &'a [u8],
}

/// A rule of the order: less is better.
type Rule = fn(&Accepted, &Accepted) -> Ordering;

/// "then the smaller claim, then fewer processors that run a task, then the first differing byte
/// lower, a shorter bundle before a longer one that begins with it."
const RULES: [Rule; 4] = [smaller_claim, fewer_processors, first_differing_byte, shorter];

/// What decided between two bundles: "accepted before refused", or the number of a rule from 0, or
/// nothing: "Equal bundles give the first lent."
#[derive(Clone, Copy, Debug, PartialEq, Eq)]
pub enum Decided {
    Acceptance,
    Rule(usize),
    Nothing,
}

/// The better one, and what decided: "34 when both are refused, place 0, after all sheet refusals".
pub fn better<'a>(
    sheet: &Sheet,
    first: &'a [u8],
    second: &'a [u8],
) -> Result<(&'a [u8], Decided), Refusal> {
    match (accepted(sheet, first), accepted(sheet, second)) {
        (None, None) => Err(Refusal::new(34, 0)),
        (Some(_), None) => Ok((first, Decided::Acceptance)),
        (None, Some(_)) => Ok((second, Decided::Acceptance)),
        (Some(one), Some(other)) => {
            let orders = RULES.iter().map(|rule| rule(&one, &other)).enumerate();
            match orders.into_iter().find(|(_, order)| order.is_ne()) {
                None => Ok((first, Decided::Nothing)),
                Some((rule, Ordering::Less)) => Ok((first, Decided::Rule(rule))),
                Some((rule, _)) => Ok((second, Decided::Rule(rule))),
            }
        }
    }
}

/// The bundle of these bytes, if the checker accepts it.
fn accepted<'a>(sheet: &Sheet, bytes: &'a [u8]) -> Option<Accepted<'a>> {
    let bundle = Bundle::read(sheet, bytes).ok()?;
    checker::check(sheet, &bundle).ok()?;
    Some(Accepted { bundle, bytes })
}

/// "the smaller claim".
fn smaller_claim(one: &Accepted, other: &Accepted) -> Ordering {
    one.bundle.claim.cmp(&other.bundle.claim)
}

/// "fewer processors that run a task".
fn fewer_processors(one: &Accepted, other: &Accepted) -> Ordering {
    let runs_a_task =
        |programme: &&Vec<Action>| programme.iter().any(|action| matches!(action, Action::Run(_)));
    let count = |accepted: &Accepted| accepted.bundle.programmes.iter().filter(runs_a_task).count();
    count(one).cmp(&count(other))
}

/// "the first differing byte lower".
fn first_differing_byte(one: &Accepted, other: &Accepted) -> Ordering {
    let mut pairs = one.bytes.iter().zip(other.bytes);
    pairs.find(|(a, b)| a != b).map_or(Ordering::Equal, |(a, b)| a.cmp(b))
}

/// "a shorter bundle before a longer one that begins with it", where no byte differs.
fn shorter(one: &Accepted, other: &Accepted) -> Ordering {
    one.bytes.len().cmp(&other.bytes.len())
}
