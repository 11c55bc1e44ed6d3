//! A set of tasks, as a bit for each of 256.

/// A set of task numbers.
#[derive(Clone, Copy, Debug, Default, PartialEq, Eq)]
pub struct TaskSet([u64; 4]);

impl TaskSet {
    /// The tasks below `count`.
    pub fn below(count: usize) -> Self {
        let mut set = TaskSet::default();
        (0..count).for_each(|task| {
            set.insert(task);
        });
        set
    }

    /// Puts a task in; false if it was there.
    pub fn insert(&mut self, task: usize) -> bool {
        let word = &mut self.0[task / 64];
        let bit = 1 << (task % 64);
        let absent = *word & bit == 0;
        *word |= bit;
        absent
    }

    /// Takes a task out.
    pub fn remove(&mut self, task: usize) {
        self.0[task / 64] &= !(1 << (task % 64));
    }

    /// Adds the tasks of another set.
    pub fn join(&mut self, other: &TaskSet) {
        for (word, more) in self.0.iter_mut().zip(other.0) {
            *word |= more;
        }
    }

    /// Whether each task that is both here and in `among` is in `whole` too.
    pub fn within(&self, among: &TaskSet, whole: &TaskSet) -> bool {
        (0..4).all(|i| self.0[i] & among.0[i] & !whole.0[i] == 0)
    }
}

#[cfg(test)]
mod tests {
    use super::*;

    #[test]
    fn holds_what_was_put_in() {
        let mut set = TaskSet::default();
        assert!(set.insert(0) && set.insert(63) && set.insert(64) && set.insert(255));
        assert!(!set.insert(255));
        set.remove(255);
        assert!(set.insert(255));
    }

    #[test]
    fn within_looks_only_among() {
        let mut set = TaskSet::below(70);
        set.insert(200);
        let whole = TaskSet::below(80);
        assert!(!set.within(&TaskSet::below(256), &whole));
        assert!(set.within(&TaskSet::below(200), &whole));
        let mut both = TaskSet::default();
        both.join(&set);
        assert_eq!(both, set);
    }
}
