//! A refusal: document 01's number and place, and its word for it.

mod explanation;
mod form;
mod formula;
mod kinds;
mod least;
mod load;
mod programmes;
mod seen;

pub use explanation::{About, Explanation, Subject};

use std::error::Error;
use std::fmt::{self, Display, Formatter};

/// Why there is no result.
///
/// ```
/// use zeldrupa::WorkArea;
///
/// let refusal = WorkArea::new().read_sheet(&[0x4D, 17, 0, 0, 0, 0]).unwrap_err();
/// assert_eq!((refusal.number(), refusal.place()), (6, 0));
/// assert_eq!(refusal.to_string(), "refused: range (6), place 0");
/// ```
#[derive(Clone, Copy, Debug, PartialEq, Eq, Hash)]
pub struct Refusal {
    number: u8,
    place: u64,
}

impl Refusal {
    /// The refusal of an answer, if it is one.
    pub(crate) fn of((number, place): crate::raw::Answer) -> Result<u64, Refusal> {
        match number {
            0 => Ok(place),
            _ => Err(Refusal { number, place }),
        }
    }

    /// Its number in documents 01 and 02: 1 to 13 without 9, or 21 to 38 without 27.
    pub fn number(self) -> u8 {
        self.number
    }

    /// Its place: an offset, a task, a link, a processor, a length, a clock or a number of tasks, by its
    /// number; 0 with 34.
    pub fn place(self) -> u64 {
        self.place
    }

    /// The documents' word for it.
    pub fn word(self) -> &'static str {
        kinds::kind(self.number).map_or("unknown refusal", |kind| kind.word)
    }
}

impl Display for Refusal {
    fn fmt(&self, f: &mut Formatter) -> fmt::Result {
        write!(f, "refused: {} ({}), place {}", self.word(), self.number, self.place)
    }
}

impl Error for Refusal {}
