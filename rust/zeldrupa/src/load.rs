//! What a test load is made from.

/// A test load: the same numbers give the same sheet, wherever and whenever it is made.
///
/// Tasks and links are drawn from the seed. Not every try gives a link: the two tasks are drawn, and
/// a link is written if it leads from the lower to the higher number and is not there yet.
#[derive(Clone, Copy, Debug, PartialEq, Eq, Hash)]
pub struct Load {
    /// Where the draws start; not 0.
    pub seed: u32,
    /// How many tasks there are, 1 to 256.
    pub tasks: u32,
    /// How often a link is tried, at most 1,024 times.
    pub tries: u32,
    /// The processors of the board, 1 to 16.
    pub processors: u32,
    /// The store limit M of each processor; any.
    pub limit: u32,
}
