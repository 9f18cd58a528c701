//! Closures are called at the pairs of slots.

use crate::memory::prelude::*;
use crate::proved::table::kept::Kept;
use crate::proved::table::key::IntKey;
use crate::proved::table::linked::closures;
use crate::proved::table::linked::node::Node;
use crate::proved::table::linked::pool::Pool;
use crate::proved::table::table::slots::Slots;
use crate::proved::table::table::slots::pairs::unmark_if;
use crate::proved::table::table::stored::Stored;
use crate::memory::alloc::Allocator;

/// Keeps the pairs for which the closure returns true, in their order, slot after slot. `word` has
/// the bits of the 64 slots from an index on, and the closure is called at the pairs of these slots
/// alone. Returns the word without the bits of the slots that the calls emptied.
#[inline(always)]
fn retain_marked<K: IntKey, V, A: Allocator, F: FnMut(K, &V) -> bool>(
    slots: &mut Vec<Node<(Stored<K>, Kept<V>)>, A>,
    pool: &mut Pool<(Stored<K>, Kept<V>), A>,
    from: usize,
    word: u64,
    f: &mut F,
) -> u64 {
    let mut kept = word;
    let mut left = word;
    while left != 0 {
        let slot = &mut slots[from + left.trailing_zeros() as usize];
        closures::retain(slot, pool, f);
        let rest = left & (left - 1);
        if slot.is_empty() {
            kept &= !(left ^ rest);
        }
        left = rest;
    }
    kept
}

impl<K: IntKey, V, A: Allocator> Slots<K, Kept<V>, A> {
    /// Keeps the pairs of the 64 slots from an index on for which the closure returns true, in
    /// their order. The closure is called once at each pair. The word of these slots is written
    /// behind the last call, so their bits lag until then.
    #[inline(always)]
    pub(in crate::proved::table) fn retain_word<F: FnMut(K, &V) -> bool>(&mut self, from: usize, f: &mut F) {
        let word = self.bits.word(from);
        let kept = retain_marked(&mut self.slots, &mut self.pool, from, word, f);
        self.bits.set_word(from, kept);
    }
}

impl<K: IntKey, V, A: Allocator> Slots<K, Kept<V>, A> {
    /// Asks the closure about each pair of a slot, from the place on, and removes the first one
    /// that it picks. Those behind it move up, and the place moves on to the first of them.
    #[inline(always)]
    pub(in crate::proved::table) fn extract_at<F: FnMut(K, &mut V) -> bool>(
        &mut self,
        index: usize,
        place: &mut usize,
        f: &mut F,
    ) -> Option<(Stored<K>, Kept<V>)> {
        let slot = &mut self.slots[index];
        let found = closures::extract(slot, &mut self.pool, place, f);
        unmark_if(&mut self.bits, slot.is_empty(), index);
        found
    }

    /// Calls the closure at each pair of a slot in turn, with a mutable reference to its value.
    #[inline(always)]
    pub(in crate::proved::table) fn write_at<F: FnMut(K, &mut V)>(&mut self, index: usize, f: &mut F) {
        closures::write_each(&mut self.slots[index], &mut self.pool, f);
    }
}
