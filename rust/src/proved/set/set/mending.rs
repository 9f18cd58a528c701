//! Sets that a panic has left in the middle of a call.
use super::IntSet;
use crate::memory::alloc::Allocator;
use crate::proved::map::IntKey;

impl<K: IntKey, A: Allocator + Copy> IntSet<K, A> {
    /// Makes a set whole again after a panic of a closure or of a key's `number`.
    pub fn mend(&mut self) {
        self.map.mend();
    }
}

