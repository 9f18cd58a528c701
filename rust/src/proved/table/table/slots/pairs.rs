//! Single pairs are put into a slot, replaced and removed.

use crate::memory::prelude::*;
use crate::proved::table::bits::Bits;
use crate::proved::table::key::IntKey;
use crate::proved::table::linked::node::{NODE_LIMIT, NOWHERE, Node};
use crate::proved::table::linked::row::{self, insertion, removal};
use crate::proved::table::steps::Steps;
use crate::proved::table::table::slots::Slots;
use crate::proved::table::table::stored::{Sought, Stored};
use crate::memory::alloc::Allocator;

/// Clears the bit of a slot if it holds no pair.
#[inline(always)]
pub(super) fn unmark_if<A: Allocator>(bits: &mut Bits<A>, is_empty: bool, index: usize) {
    if is_empty {
        bits.clear(index);
    }
}

/// Removes the only pair of a slot, and clears the bit of the slot.
#[inline(always)]
fn take_only<P, A: Allocator>(slot: &mut Node<P>, bits: &mut Bits<A>, index: usize) -> P {
    // read before the slot is written, so that the write can't delay it
    let word = bits.word(index);
    let (_, pair) = slot.take();
    bits.clear_in(word, index);
    pair
}

impl<K: IntKey, X, A: Allocator> Slots<K, X, A> {
    /// Puts a pair last in its slot, and returns its place. If an allocation fails, it returns the
    /// pair, and nothing changes. A slot without a pair needs no allocation.
    #[inline(always)]
    pub(in crate::proved::table) fn push(
        &mut self,
        index: usize,
        pair: (Stored<K>, X),
    ) -> Result<usize, (Stored<K>, X)> {
        if self.is_vacant(index) {
            self.fill(index, pair);
            return Ok(0);
        }
        let place = insertion::push_further(&mut self.slots[index], &mut self.pool, pair)?;
        Ok(place)
    }

    /// Whether a slot holds no pair.
    #[inline(always)]
    pub(in crate::proved::table) fn is_vacant(&self, index: usize) -> bool {
        self.slots[index].is_empty()
    }

    /// Puts a first pair into a slot that holds none. It allocates nothing.
    #[inline(always)]
    pub(in crate::proved::table) fn fill(&mut self, index: usize, pair: (Stored<K>, X)) {
        let slot = &mut self.slots[index];
        // read before the slot changes, so that a write there can't delay it
        let word = self.bits.word(index);
        slot.fill(NOWHERE, pair);
        self.bits.set_in(word, index);
    }

    /// Whether the first pair of a slot has the key. If there is a first pair, its key is compared,
    /// which is one step.
    #[inline(always)]
    pub(in crate::proved::table) fn first_is(&self, index: usize, key: &Sought<K>, steps: &mut Steps) -> bool {
        row::first_is(&self.slots[index], &self.pool, key, steps)
    }

    /// Puts a pair last in its slot. If the slot holds a pair there is room for one more, so it
    /// allocates nothing.
    pub(in crate::proved::table) fn put_back(&mut self, index: usize, pair: (Stored<K>, X)) {
        match self.push(index, pair) {
            Ok(_) => {}
            Err(_) => unreachable!(),
        }
    }

    /// Removes the pair at a place of a slot. The last pair of the slot takes its place.
    #[inline(always)]
    pub(in crate::proved::table) fn take_at(&mut self, index: usize, place: usize) -> (Stored<K>, X) {
        let slot = &mut self.slots[index];
        let Some((link, _)) = slot.get() else {
            unreachable!();
        };
        if link < NODE_LIMIT {
            return removal::swap_remove_of_several(slot, link, &mut self.pool, place);
        }
        take_only(slot, &mut self.bits, index)
    }

    /// Removes the pair of a key from its slot, and returns its value. The last pair of the slot
    /// takes its place. The keys are compared from the front, up to the one sought. Each comparison
    /// is one step.
    #[inline(always)]
    pub(in crate::proved::table) fn remove(&mut self, index: usize, key: Sought<K>, steps: &mut Steps) -> Option<X> {
        let slot = &mut self.slots[index];
        let Some((link, first)) = slot.get() else {
            return None;
        };
        if link < NODE_LIMIT {
            return removal::remove_of_several(slot, link, &mut self.pool, key, steps);
        }
        if !first.0.matches(&key, steps) {
            return None;
        }
        let (_, value) = take_only(slot, &mut self.bits, index);
        Some(value)
    }

    /// Removes the first pair of a slot. The last pair of the slot takes its place, and a new one is
    /// put last. It allocates nothing.
    #[inline(always)]
    pub(in crate::proved::table) fn replace_first(&mut self, index: usize, new: (Stored<K>, X)) -> (Stored<K>, X) {
        insertion::replace_first(&mut self.slots[index], &mut self.pool, new)
    }

    /// Puts the pair of a key and a value last in a slot whose first pair, if there is one, has
    /// another key. If the key is present, the last pair takes the place of its pair, and the old
    /// value is returned. An absent key is added only if `adds` is true. If it isn't added, or if an
    /// allocation fails, the value is returned.
    #[inline(always)]
    pub(in crate::proved::table) fn put(
        &mut self,
        index: usize,
        key: Sought<K>,
        value: X,
        adds: bool,
        steps: &mut Steps,
    ) -> Result<Option<X>, X> {
        let slot = &mut self.slots[index];
        let old = insertion::put(slot, &mut self.pool, key, value, adds, steps)?;
        Ok(old)
    }

    /// Puts the pair of a key and a value last in a slot whose first pair, if there is one, has
    /// another key. If the key is present, nothing changes, and the value is dropped. An absent key
    /// is added only if `adds` is true. It returns whether the key was added. If it is absent and
    /// isn't added, or if an allocation fails, the value is returned.
    #[inline(always)]
    pub(in crate::proved::table) fn add_checked(
        &mut self,
        index: usize,
        key: Sought<K>,
        value: X,
        adds: bool,
        steps: &mut Steps,
    ) -> Result<bool, X> {
        let slot = &mut self.slots[index];
        let new = insertion::add_checked(slot, &mut self.pool, key, value, adds, steps)?;
        Ok(new)
    }

    /// Removes the first pair of a slot. The others move up by one place.
    #[inline(always)]
    pub(in crate::proved::table) fn take_front(&mut self, index: usize) -> (Stored<K>, X) {
        let slot = &mut self.slots[index];
        let Some((link, _)) = slot.get() else {
            unreachable!();
        };
        if link < NODE_LIMIT {
            return removal::pop_front_of_several(slot, link, &mut self.pool);
        }
        take_only(slot, &mut self.bits, index)
    }
}
