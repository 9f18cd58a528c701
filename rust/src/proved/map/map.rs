//! The map: a table of slots, the number of its pairs and its load factor. This file has its length
//! and its capacity, the search for a key, and the calls on a pair that a search located. These
//! calls compare no key.

mod build;
mod figures;
mod get;
mod grow;
mod insert;
pub mod iter;
mod remove;
mod traits;

use crate::memory::prelude::*;
use crate::proved::table::IntKey;
use crate::proved::table::kept::Kept;
use crate::proved::table::steps::Steps;
use crate::proved::table::table::Table;
use crate::proved::table::table::locate::Location;
use crate::proved::table::table::stored::Sought;
use crate::memory::alloc::{Allocator, Global};

/// A hash map from integer keys to values.
///
/// Its pairs lie in slots, whose number is a power of two. A key's slot is its number times an odd
/// constant, modulo the number of slots: two keys share a slot if and only if their numbers are
/// equal modulo the number of slots. Iteration goes through the slots in turn, and through each
/// from front to back. The list of the pairs in this order is the walk. It depends on the calls
/// alone: there is no random seed. No call makes the number of slots smaller.
///
/// Contracts see a map as a [`MapState`](../specs/Map.antt): its walk, its number of slots, its
/// load factor in thousandths, two counts, and for how many pairs behind the first ones of their
/// slots there surely is memory. One counts the pairs that insertions put into larger tables, the
/// other the keys that calls by `&mut` compared, except steps of
/// [`get_disjoint_mut`](IntMap::get_disjoint_mut). Only contracts see these three numbers: they
/// take no memory.
pub struct IntMap<K, V, A: Allocator + Copy = Global> {
    table: Table<K, Kept<V>, A>,
    len: usize,
    threshold: usize,
    factor: usize,
    placed: Steps,
    compared: Steps,
    reserved: Steps,
}

impl<K: IntKey, V, A: Allocator + Copy> IntMap<K, V, A> {
    /// The number of pairs. It never fails.
    pub fn len(&self) -> usize {
        self.len
    }

    /// Whether there is no pair. It never fails.
    pub fn is_empty(&self) -> bool {
        self.len == 0
    }

    /// The number of slots, a power of two from 2 to 2^63. It never fails.
    pub fn capacity(&self) -> usize {
        self.table.capacity()
    }

    /// Does nothing. Its contract says what holds of every map. A function calls it if it makes no
    /// other call whose contract says so.
    #[inline(always)]
    pub(in crate::proved::map) fn known(&self) {
        let _ = &self.table;
    }
}

impl<K: IntKey, V, A: Allocator + Copy> IntMap<K, V, A> {
    /// Where the pair of the key is, or the slot of the key if the key is absent. The map counts
    /// the comparisons.
    #[inline(always)]
    pub(in crate::proved::map) fn locate(&mut self, key: &Sought<K>) -> Result<Location<K>, usize> {
        self.table.locate(key, &mut self.compared)
    }

    /// The key of the pair at a place of a slot.
    #[inline(always)]
    pub(in crate::proved::map) fn key_at(&self, slot: usize, place: usize) -> &K {
        self.table.key_at(slot, place)
    }

    /// Where the pair at a place of a slot is, with its key.
    #[inline(always)]
    pub(in crate::proved::map) fn location(&self, slot: usize, place: usize) -> Location<K> {
        let key = *self.key_at(slot, place);
        Location { key, slot, place }
    }

    /// The value of the pair at a place of a slot.
    #[inline(always)]
    pub(in crate::proved::map) fn value_in(&self, slot: usize, place: usize) -> &V {
        self.table.value_in(slot, place).get()
    }

    /// A mutable reference to the value of the pair at a place of a slot.
    #[inline(always)]
    pub(in crate::proved::map) fn value_mut_in(&mut self, slot: usize, place: usize) -> &mut V {
        self.table.value_mut_in(slot, place).get_mut()
    }

    /// Removes a located pair, and returns its value. The last pair of its slot takes its place.
    #[inline(always)]
    pub(in crate::proved::map) fn take_at(&mut self, at: Location<K>) -> V {
        let kept = self.table.take_at(at);
        self.len -= 1;
        kept.into_value()
    }

    /// Removes a located pair and hands its value to the closure. If the closure returns an error,
    /// the pair of the key and the value in it is put at the end of the slot. It allocates nothing.
    /// While the closure runs, the map is one without the pair.
    pub(in crate::proved::map) fn hand_over_at<R, F: FnOnce(V) -> Result<R, V>>(
        &mut self,
        at: Location<K>,
        f: F,
    ) -> Option<R> {
        let len = self.len;
        // before the closure runs, so that the number of pairs is right meanwhile
        self.len = len - 1;
        match self.table.hand_over(at, f) {
            Some(handed) => Some(handed),
            None => {
                self.len = len;
                None
            }
        }
    }
}

// Only Rust has what follows. It is tested, not proved.
mod mending;
