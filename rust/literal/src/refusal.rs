//! "What the checker and planner say no with": a number and a place, and the two rules on what is
//! lent.

/// A refusal, by its number in document 01's table.
#[derive(Clone, Copy, Debug, PartialEq, Eq)]
pub struct Refusal {
    pub number: u8,
    pub place: u64,
}

impl Refusal {
    /// The refusal of this number at this place.
    pub fn new(number: u8, place: usize) -> Self {
        Refusal { number, place: place as u64 }
    }
}

/// 12, short output: "result longer than lent", with the "length needed".
pub fn output(needed: usize, lent: usize) -> Result<(), Refusal> {
    match needed > lent {
        true => Err(Refusal::new(12, needed)),
        false => Ok(()),
    }
}

/// 13, short work area: "below the fixed length in docs/", with "that length".
pub fn area(fixed: usize, lent: usize) -> Result<(), Refusal> {
    match lent < fixed {
        true => Err(Refusal::new(13, fixed)),
        false => Ok(()),
    }
}
