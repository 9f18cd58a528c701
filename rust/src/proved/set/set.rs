//! The set: a map from each member to `()`.

mod build;
mod combine;
mod insert;
pub mod iter;
mod remove;
mod traits;

use crate::memory::prelude::*;
use crate::proved::map::{IntKey, IntMap};
use crate::memory::alloc::{Allocator, Global};

/// A set of integers.
///
/// Its members lie in slots as the keys of an [`IntMap`] do: iteration goes through the slots in
/// turn, and through each from front to back. The list of the members in this order is the walk. It
/// depends on the calls alone: there is no random seed. No call makes the number of slots smaller.
///
/// A slot of an `IntSet<u64>` takes 16 bytes and a bit, and has room for one member. Each further
/// member of the slot takes a node of 16 bytes in a vector for all slots. With keys of at most 4
/// bytes a slot takes 12 bytes and a bit, and a node 12.
///
/// Contracts see a set as a [`SetState`](../specs/Sets.antt): its walk, its number of slots and two
/// counts. One counts the members that insertions put into larger tables, the other the keys that
/// calls by `&mut` compared. Only contracts see the counts: they take no memory. The load factor of
/// every set is `load_factor`, 909 thousandths. Whether a key is a member is `holds` of the walk.
pub struct IntSet<K, A: Allocator + Copy = Global> {
    map: IntMap<K, (), A>,
}

impl<K: IntKey, A: Allocator + Copy> IntSet<K, A> {
    /// Whether the key is a member. It never fails, and its comparisons of keys aren't counted.
    pub fn contains(&self, key: K) -> bool {
        self.map.contains_key(key)
    }

    /// The number of members. It never fails.
    pub fn len(&self) -> usize {
        self.map.len()
    }

    /// Whether there is no member. It never fails.
    pub fn is_empty(&self) -> bool {
        self.map.is_empty()
    }

    /// The number of slots, a power of two from 2 to 2^63. It never fails.
    pub fn capacity(&self) -> usize {
        self.map.capacity()
    }

    /// Does nothing. Its contract says what holds of every set. A function calls it if no other
    /// call of the function tells the proof so.
    fn known(&self) {
        let _len = self.map.len();
    }
}

// Only Rust has what follows. It is tested, not proved.
mod mending;
mod written;
