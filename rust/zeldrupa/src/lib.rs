//! The proved planner for boards of small processors, from Rust.
//!
//! A [`WorkArea`] has every call: it reads and writes a [`Sheet`] of tasks and a [`Bundle`] of
//! programmes, makes a sheet from a seed ([`Load`]), plans, finds the least time of small sheets,
//! checks, releases what is finished with, tells how far times may drift, chooses, lists, and starts a
//! [`Machine`]; [`weight`] alone needs none, and turns a formula into a task's work. Each answer is the
//! static library's own; a [`Refusal`] has the documents' number, place and word, and
//! [`Refusal::explain`] tells it in the user's terms.
//!
//! ```
//! use zeldrupa::{Board, Link, Refusal, Task, WorkArea};
//!
//! # fn main() -> Result<(), Refusal> {
//! let mut work = WorkArea::new();
//! let tasks = [Task { work: 2, store: 10 }, Task { work: 3, store: 10 }];
//! let links = [Link { source: 0, target: 1, cost: 1, bytes: 4 }];
//! let sheet = work.write_sheet(Board::new(3, 100), &tasks, &links)?;
//! assert_eq!(work.levels(&sheet)?, [6, 3]);
//!
//! let bundle = work.plan(&sheet)?;
//! assert_eq!(bundle.claim(), 5);
//! work.check(&sheet, &bundle)?;
//!
//! let mut machine = work.start(&sheet, &bundle)?;
//! while machine.left() > 0 {
//!     assert!(machine.step(0));
//! }
//! assert_eq!(machine.latest_clock(), 5);
//! # Ok(())
//! # }
//! ```
//!
//! Nothing is proved of this crate itself: it lends buffers and names what comes back. [`raw`] has
//! the library's functions as they are.

#![deny(missing_docs)]

mod bundle;
mod formula;
mod load;
mod machine;
pub mod raw;
mod refusal;
mod sheet;
mod work_area;

/// The example of the repository's README.md, as a test.
#[cfg(doctest)]
#[doc = include_str!("../../../README.md")]
struct Readme;

pub use bundle::{bundle_values, Bundle, Command};
pub use formula::{letter_values, weight};
pub use load::Load;
pub use machine::{Machine, Processor, Wait};
pub use refusal::{About, Explanation, Refusal, Subject};
pub use sheet::{Board, Link, Sheet, Task};
pub use work_area::WorkArea;
