//! Tables that a panic has left in the middle of a call.
use super::Table;
use crate::memory::alloc::Allocator;
use crate::proved::table::IntKey;

impl<K: IntKey, X, A: Allocator> Table<K, X, A> {
    /// Makes a table whole again after a panic of a closure, of a drop or of a key's `number`, and
    /// returns how many pairs it has. It calls no `number`.
    pub fn mend(&mut self) -> usize {
        self.slots.mend()
    }
}
