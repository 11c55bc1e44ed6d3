//! A set of processors, as a bit for each of 16.

use crate::sheet::MOST_PROCESSORS;
use std::iter;
use std::ops::{BitAnd, Not};

/// A set of processor numbers.
#[derive(Clone, Copy, Debug, Default, PartialEq, Eq)]
pub struct ProcessorSet(u16);

impl ProcessorSet {
    /// The processors with a property.
    #[inline]
    pub fn with(property: impl Fn(usize) -> bool) -> Self {
        ProcessorSet((0..MOST_PROCESSORS).fold(0, |set, k| set | u16::from(property(k)) << k))
    }

    /// The processors below `count`.
    pub fn below(count: usize) -> Self {
        ProcessorSet(((1u32 << count) - 1) as u16)
    }

    /// Puts a processor in.
    pub fn insert(&mut self, k: usize) {
        self.0 |= 1 << k;
    }

    /// Its processors in rising number.
    pub fn iter(self) -> impl Iterator<Item = usize> {
        let mut left = self.0;
        iter::from_fn(move || {
            let lowest = left.trailing_zeros() as usize;
            left &= left.wrapping_sub(1);
            (lowest < MOST_PROCESSORS).then_some(lowest)
        })
    }
}

impl Not for ProcessorSet {
    type Output = Self;

    fn not(self) -> Self {
        ProcessorSet(!self.0)
    }
}

impl BitAnd for ProcessorSet {
    type Output = Self;

    fn bitand(self, other: Self) -> Self {
        ProcessorSet(self.0 & other.0)
    }
}

#[cfg(test)]
mod tests {
    use super::*;

    #[test]
    fn sets_hold_what_they_should() {
        let set = ProcessorSet::with(|k| k % 3 == 0);
        assert_eq!(set.iter().collect::<Vec<_>>(), [0, 3, 6, 9, 12, 15]);
        assert_eq!((set & ProcessorSet::below(6)).iter().collect::<Vec<_>>(), [0, 3]);
        assert_eq!((!set & ProcessorSet::below(6)).iter().collect::<Vec<_>>(), [1, 2, 4, 5]);
        assert_eq!((set & ProcessorSet::with(|k| k == 1)).iter().next(), None);
        for count in [0, 1, 15, 16] {
            assert_eq!(ProcessorSet::below(count), ProcessorSet::with(|k| k < count));
        }
    }
}
