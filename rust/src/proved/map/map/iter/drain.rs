//! Removal of pairs from the front of the walk, one by one.

use crate::memory::prelude::*;
use crate::proved::map::map::IntMap;
use crate::proved::table::IntKey;
use crate::proved::table::table::front::Front;
use crate::memory::alloc::{Allocator, Global};

/// Removes one pair of a map at each step and returns it, made by
/// [`IntMap::drain`](crate::proved::map::IntMap::drain). At every moment the map has the pairs that are left,
/// and its length counts these. If the iterator is dropped early, they stay, in their order. They
/// also stay if it is forgotten, but no clause says that. Dropping it takes constant time, however
/// many are left.
pub struct Drain<'a, K, V, A: Allocator + Copy = Global> {
    pub(in crate::proved::map) map: &'a mut IntMap<K, V, A>,
    pub(in crate::proved::map) front: Front,
}

impl<'a, K: IntKey, V, A: Allocator + Copy> Iterator for Drain<'a, K, V, A> {
    type Item = (K, V);

    #[inline]
    fn next(&mut self) -> Option<(K, V)> {
        self.map.take_next(&mut self.front)
    }
}

impl<K: IntKey, V, A: Allocator + Copy> IntMap<K, V, A> {
    /// An iterator that removes one pair at each step and returns it, in iteration order. At every
    /// moment, the pairs that it returned and then the pairs that the map has are the walk at the
    /// start. The capacity, the load factor and both counts stay, and the map keeps its memory.
    /// It allocates nothing and never fails.
    ///
    /// After each step the other pairs of the slot are in their order, so that the map has them
    /// even if the iterator is forgotten. The time of a step doesn't depend on how many share a
    /// slot.
    pub fn drain(&mut self) -> Drain<'_, K, V, A> {
        self.known();
        let front = self.table.front();
        Drain { map: self, front }
    }
}
