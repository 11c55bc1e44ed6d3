//! The rules of documents 01 and 02 word for word: over plain lists, without any cleverness, each
//! beside the sentence that it renders. Nothing is kept that can be looked up again, so it is for
//! small inputs.
//!
//! Where the answer of a function depends on several rules, they stand in a list in the order in
//! which the documents try them; [`interface`] has each function of the library, from bytes to its
//! answer.

pub mod better;
pub mod bundle;
pub mod checker;
pub mod commands;
pub mod drift;
pub mod early;
pub mod formulas;
pub mod interface;
pub mod least;
pub mod levels;
pub mod listing;
pub mod load;
pub mod machine;
pub mod placing;
pub mod refusal;
pub mod release;
pub mod sheet;

pub use refusal::Refusal;
