//! The rules rewritten to be fast: the opponent of the benchmark, which the proved product is also
//! held against on inputs of all sizes. It shares many of the planner's shortcuts, so it is itself
//! held against the crate `literal`, which has none, in `tests/plain.rs`.
//!
//! Each module has one part of the rules over typed values; [`interface`] has the same parts from
//! bytes to lent buffers, as the product's C interface has them.

pub mod better;
pub mod bundle;
pub mod checker;
mod command_bytes;
pub mod drift;
pub mod figures;
pub mod formula;
pub mod graph;
pub mod interface;
pub mod least;
pub mod listing;
pub mod load;
pub mod machine;
pub mod messages;
pub mod planner;
mod processor_set;
pub mod refusal;
pub mod release;
pub mod sheet;
mod task_set;
pub mod trials;

pub use refusal::Refusal;
