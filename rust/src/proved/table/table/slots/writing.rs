//! A value of one slot is lent to be written, at a place or by its key, and all pairs are dropped.

use crate::memory::prelude::*;
use crate::proved::table::bits::Bits;
use crate::proved::table::kept::Kept;
use crate::proved::table::key::IntKey;
use crate::proved::table::linked::chain::{search, seek};
use crate::proved::table::linked::node::Node;
use crate::proved::table::linked::pool::Pool;
use crate::proved::table::linked::row::removal;
use crate::proved::table::steps::Steps;
use crate::proved::table::table::slots::{Slots, add_empty};
use crate::proved::table::table::stored::{Sought, Stored};
use crate::memory::alloc::Allocator;
use core::mem;

/// Drops the pairs of a slot, from its front.
fn drop_row<P, A: Allocator>(slot: &mut Node<P>, pool: &mut Pool<P, A>) {
    while let Some((link, _)) = slot.get() {
        removal::pop_front(slot, link, pool);
    }
}

/// Drops the pairs of all slots, slot after slot. The bits mark those that hold a pair.
fn drop_rows<K: IntKey, X, A: Allocator>(
    bits: &Bits<A>,
    slots: &mut Vec<Node<(Stored<K>, X)>, A>,
    pool: &mut Pool<(Stored<K>, X), A>,
) {
    for index in bits.iter() {
        drop_row(&mut slots[index], pool);
    }
}

impl<K: IntKey, X, A: Allocator> Slots<K, X, A> {
    /// A mutable reference to the value of the pair at a place of a slot.
    #[inline(always)]
    pub(in crate::proved::table) fn value_mut_at(&mut self, index: usize, place: usize) -> &mut X {
        if place == 0 {
            return self.slots[index].value_mut();
        }
        let Some((link, _)) = self.slots[index].get() else {
            unreachable!();
        };
        let at = seek(&self.pool, link, place - 1);
        self.pool.value_mut(at)
    }
}

impl<K: IntKey, V, A: Allocator> Slots<K, Kept<V>, A> {
    /// A mutable reference to the value of the key's pair in a slot. The keys are compared from the
    /// front, up to the one sought. Each comparison is one step.
    #[inline(always)]
    pub(in crate::proved::table) fn value_mut_of(
        &mut self,
        index: usize,
        key: &Sought<K>,
        steps: &mut Steps,
    ) -> Option<&mut V> {
        let Some((link, first)) = self.slots[index].get() else {
            return None;
        };
        if first.0.matches(key, steps) {
            return Some(self.slots[index].value_mut().get_mut());
        }
        let Ok(spot) = search(&self.pool, link, key, steps) else {
            return None;
        };
        Some(self.pool.value_mut(spot.at).get_mut())
    }
}

impl<K: IntKey, X, A: Allocator> Slots<K, X, A> {
    /// Drops all pairs, slot after slot, and keeps the slots and the memory that they and the nodes
    /// have.
    pub(in crate::proved::table) fn clear(&mut self) {
        if mem::needs_drop::<X>() {
            drop_rows(&self.bits, &mut self.slots, &mut self.pool);
        } else {
            // nothing shows in which order such values are dropped
            let count = self.slots.len();
            self.slots.truncate(0);
            add_empty(&mut self.slots, count);
            self.pool.clear();
        }
        self.bits.clear_all();
    }
}
