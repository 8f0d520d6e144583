//! Buffers between guard entries, which no call may touch.

use std::fmt::Debug;

/// Guard entries on either side.
const GUARDS: usize = 16;

pub struct Lent<T> {
    all: Vec<T>,
    guard: T,
}

impl<T: Copy + Debug + PartialEq> Lent<T> {
    pub fn new(entries: &[T], guard: T) -> Lent<T> {
        let all = [&[guard; GUARDS], entries, &[guard; GUARDS]].concat();
        Lent { all, guard }
    }

    pub fn entries(&self) -> &[T] {
        &self.all[GUARDS..self.all.len() - GUARDS]
    }

    pub fn entries_mut(&mut self) -> &mut [T] {
        let end = self.all.len() - GUARDS;
        &mut self.all[GUARDS..end]
    }

    /// It holds these entries, and the guards are untouched.
    pub fn holds(&self, entries: &[T]) {
        let guards = [self.guard; GUARDS];
        assert_eq!(self.all[..GUARDS], guards, "guards before");
        assert_eq!(self.all[self.all.len() - GUARDS..], guards, "guards after");
        assert!(self.entries() == entries, "entries differ");
    }
}
