//! Sets made of many keys.

use crate::memory::prelude::*;
use crate::proved::set::set::IntSet;
use crate::proved::map::{Cause, IntKey, RefusedPair};
use crate::memory::alloc::Allocator;

impl<K: IntKey, A: Allocator + Copy> IntSet<K, A> {
    /// Inserts the iterator's keys in turn, each as [`insert`](IntSet::insert) does. The table
    /// grows only as these insertions make it grow: nothing is reserved ahead. The iterator must be
    /// ready for a call of `next`, and must end.
    ///
    /// It stops at the first insertion that fails, and returns that key with the cause and the
    /// number of keys before it. Those keys stay members. The search for each key that was tried is
    /// counted, also for the one that failed. The iterator is dropped, with the keys that it hasn't
    /// given. With `?`, a caller that returns a [`Cause`] drops the key.
    pub fn extend<I: Iterator<Item = K>>(
        &mut self,
        iter: I,
    ) -> Result<(), RefusedPair<K, ()>> {
        self.known();
        let mut applied: usize = 0;
        for key in iter {
            if let Err(cause) = self.insert(key) {
                return Err(RefusedPair {
                    key,
                    value: (),
                    applied,
                    cause,
                });
            }
            applied = applied.saturating_add(1);
        }
        Ok(())
    }

    /// A set of the iterator's keys: [`with_capacity`](IntSet::with_capacity) of the lower bound of
    /// its `size_hint`, and then [`extend`](IntSet::extend), which counts what it compares. The
    /// iterator must be ready for a call of `next`, and must end.
    ///
    /// It fails if either call fails, with the same cause. A failed call drops everything.
    pub fn from_iter<I: Iterator<Item = K>>(alloc: A, iter: I) -> Result<IntSet<K, A>, Cause> {
        let (lower, _) = iter.size_hint();
        let mut set = IntSet::with_capacity(alloc, lower)?;
        match set.extend(iter) {
            Ok(()) => Ok(set),
            Err(refused) => Err(refused.cause),
        }
    }
}
