//! The refusals: a number, named here by the trade's word for it, and a place.

/// Why there is no result.
#[derive(Clone, Copy, Debug, PartialEq, Eq)]
pub struct Refusal {
    /// The number of the reason.
    pub number: u8,
    /// Where the reason lies: an offset, a task, a link, a processor, a length or a clock.
    pub place: u64,
}

impl Refusal {
    /// The refusal of this number at this place.
    pub fn new(number: u8, place: usize) -> Self {
        Refusal { number, place: place as u64 }
    }
}

/// A sheet's operands or end are missing.
pub const CUT_SHEET: u8 = 1;
/// A byte is no command of a sheet.
pub const STRANGE_IN_SHEET: u8 = 2;
/// The order of kinds is broken.
pub const SHEET_OUT_OF_TURN: u8 = 3;
/// Bytes stand after a sheet's end.
pub const SHEET_TAIL: u8 = 4;
/// The 257th task or the 1,025th link.
pub const OVER_FULL: u8 = 5;
/// The processors or the work are out of range.
pub const RANGE: u8 = 6;
/// A link names an undeclared task.
pub const LOOSE_LINK: u8 = 7;
/// A link joins the same two tasks again.
pub const DOUBLED_LINK: u8 = 8;
/// Tasks stand in a circle.
pub const LOOP: u8 = 10;
/// No step gives a processor.
pub const NO_STORE: u8 = 11;
/// The result is longer than the output.
pub const SHORT_OUTPUT: u8 = 12;
/// The work area is below the fixed length.
pub const SHORT_WORK_AREA: u8 = 13;
/// A bundle's operands or claim are missing.
pub const CUT_BUNDLE: u8 = 21;
/// A byte is no command of a bundle.
pub const STRANGE_IN_BUNDLE: u8 = 22;
/// A command stands before the first programme, or a programme has the wrong number.
pub const BUNDLE_OUT_OF_TURN: u8 = 23;
/// Bytes stand after the claim.
pub const BUNDLE_TAIL: u8 = 24;
/// A command names an undeclared task or link.
pub const UNKNOWN_NUMBER: u8 = 25;
/// A task is not run just once.
pub const RUN_COUNT: u8 = 26;
/// A programme needs more store than there is.
pub const OVER_STORE: u8 = 28;
/// No processor can step, and commands are left.
pub const STUCK: u8 = 29;
/// The claim is not the latest clock.
pub const WRONG_CLAIM: u8 = 30;
/// A link's send does not fit the runs of its tasks.
pub const WRONG_SEND: u8 = 31;
/// A link's receive does not fit the runs of its tasks.
pub const WRONG_RECEIVE: u8 = 32;
/// Inside one processor a link's source runs after its target.
pub const LOCAL_ORDER: u8 = 33;
/// Of two bundles both are refused.
pub const BOTH_REFUSED: u8 = 34;
/// A text is no formula, or nested too deep.
pub const FORMULA: u8 = 35;
/// A formula's value, or the list of the letters' values, is out of range.
pub const VALUE: u8 = 36;
/// What is released is not held, or is still needed.
pub const WRONG_RELEASE: u8 = 37;
/// A sheet has more than six tasks or is a cube.
pub const NOT_SMALL: u8 = 38;

/// Whether a result of this length fits a lent output (12).
pub fn room<T>(length: usize, out: &[T]) -> Result<(), Refusal> {
    match out.len() < length {
        true => Err(Refusal::new(SHORT_OUTPUT, length)),
        false => Ok(()),
    }
}

/// Copies a result to the front of a lent output and gives its length (12).
pub fn lend<T: Copy>(result: &[T], out: &mut [T]) -> Result<usize, Refusal> {
    room(result.len(), out)?;
    out[..result.len()].copy_from_slice(result);
    Ok(result.len())
}
