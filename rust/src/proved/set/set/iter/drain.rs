//! Removal of members from the front of the walk, one by one.

use crate::memory::prelude::*;
use crate::proved::set::set::IntSet;
use crate::proved::map::IntKey;
use crate::memory::alloc::{Allocator, Global};
use core::iter::FusedIterator;

/// Removes one member of a set at each step and returns it, made by
/// [`IntSet::drain`](crate::proved::set::IntSet::drain). At every moment the set has the members that are left,
/// and its length counts these. If the iterator is dropped early, they stay, in their order. They
/// also stay if it is forgotten, but no clause says that. Dropping it takes constant time, however
/// many are left.
pub struct Drain<'a, K, A: Allocator + Copy = Global> {
    set: &'a mut IntSet<K, A>,
    from: usize,
}

impl<'a, K: IntKey, A: Allocator + Copy> Iterator for Drain<'a, K, A> {
    type Item = K;

    fn next(&mut self) -> Option<K> {
        self.set.take_front(&mut self.from)
    }
}

impl<'a, K: IntKey, A: Allocator + Copy> FusedIterator for Drain<'a, K, A> {}

impl<K: IntKey, A: Allocator + Copy> IntSet<K, A> {
    /// An iterator that removes one member at each step and returns it, in iteration order. At
    /// every moment, the members that it returned and then the members that the set has are the
    /// walk at the start. The capacity, the load factor and both counts stay, and the set keeps its
    /// memory. It allocates nothing and never fails. The time of a step doesn't depend on how many
    /// members share a slot.
    pub fn drain(&mut self) -> Drain<'_, K, A> {
        self.known();
        Drain { set: self, from: 0 }
    }
}
