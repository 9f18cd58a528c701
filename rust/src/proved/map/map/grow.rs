//! The capacity and the load factor, as callers set them.

use crate::memory::prelude::*;
use crate::proved::map::load::{GREATEST_CAPACITY, threshold_of, wanted_capacity};
use crate::proved::map::map::IntMap;
use crate::proved::map::refusal::Cause;
use crate::proved::table::IntKey;
use crate::proved::table::steps::Steps;
use crate::memory::alloc::Allocator;

/// What is reserved stays reserved if the capacity stays. Growth makes it 0.
fn keep_if_same(reserved: &mut Steps, capacity: usize, before: usize) {
    if capacity != before {
        *reserved = Steps::new();
    }
}

impl<K: IntKey, V, A: Allocator + Copy> IntMap<K, V, A> {
    /// Makes the capacity at least the least power of two that is no less than the length plus
    /// `additional`. If the capacity is greater already, it stays. The load factor isn't
    /// considered, so later insertions may still grow the table.
    ///
    /// It fails with [`Cause::TooLarge`] if and only if the length plus `additional` is above 2^63,
    /// and otherwise with [`Cause::Memory`] if an allocation fails. It never fails if the capacity
    /// is at least that sum. A failed call leaves the map as it was.
    pub fn reserve(&mut self, additional: usize) -> Result<(), Cause> {
        if self.len > GREATEST_CAPACITY || additional > GREATEST_CAPACITY - self.len {
            return Err(Cause::TooLarge);
        }
        let slots = (self.len + additional).next_power_of_two();
        let before = self.table.capacity();
        let capacity = slots.max(before);
        if self.table.grow_to(capacity, 0).is_err() {
            return Err(Cause::Memory);
        }
        keep_if_same(&mut self.reserved, capacity, before);
        self.threshold = threshold_of(capacity, self.factor);
        Ok(())
    }

    /// Makes room for `additional` pairs more: at once, whatever the length is, the capacity
    /// becomes the least of itself and its doublings that meets the load factor with these pairs.
    /// The next `additional` insertions of absent keys then leave the capacity, as long as the load
    /// factor stays.
    ///
    /// Keys that follow one another, such as ids, are then inserted without failure: each has a
    /// slot of its own, as long as they and the keys of the map lie within as many numbers in a row
    /// as there are slots. The insertion of a key whose slot holds a pair may allocate, and fail:
    /// [`reserve_insertions`](IntMap::reserve_insertions) makes room for such keys too.
    ///
    /// It fails with [`Cause::TooLarge`] if and only if there would be more than 2^64 - 1 pairs, or
    /// no capacity up to 2^63 meets the load factor with them, and otherwise with
    /// [`Cause::Memory`] if an allocation fails. If the present capacity meets it with them, the
    /// call allocates nothing. A failed call leaves the map as it was.
    pub fn reserve_pairs(&mut self, additional: usize) -> Result<(), Cause> {
        self.make_room(additional, 0)
    }

    /// Makes room for `additional` insertions of any keys: the slots that
    /// [`reserve_pairs`](IntMap::reserve_pairs) makes, and memory for as many pairs that share a
    /// slot with another. The next `additional` insertions of absent keys then allocate nothing, so
    /// none of them fails, as long as no call but insertions, removals and look-ups changes the
    /// map.
    ///
    /// Contracts say so by `HasRoom`: an insertion into a map that has room for a pair doesn't fail
    /// (its clause `has_room`), and
    /// [`insertions_leave_room`](crate::proved::map::laws::insertions_leave_room) says what it leaves of the
    /// room.
    ///
    /// It fails as [`reserve_pairs`](IntMap::reserve_pairs) does, and also, with [`Cause::Memory`],
    /// if the memory for pairs that share a slot is refused. A failed call leaves the map as it
    /// was.
    pub fn reserve_insertions(&mut self, additional: usize) -> Result<(), Cause> {
        self.make_room(additional, additional)
    }

    /// Sets the load factor, in thousandths: the greatest number of pairs for each slot at the
    /// lengths at which insertions check the load. At once, whatever the length is, the capacity
    /// becomes the least of itself and its doublings that meets the load factor.
    ///
    /// It fails with [`Cause::TooLarge`] if and only if no capacity up to 2^63 meets the load
    /// factor, and otherwise with [`Cause::Memory`] if an allocation fails. It never fails if the
    /// present capacity meets it. A failed call leaves the map as it was, with its load factor.
    pub fn set_load_factor(&mut self, thousandths: usize) -> Result<(), Cause> {
        self.fit(self.len, thousandths, 0)
    }

    /// Makes the slots that meet the load factor with `additional` pairs more, and room for
    /// `sharing` more pairs that share a slot with another.
    fn make_room(&mut self, additional: usize, sharing: usize) -> Result<(), Cause> {
        let Some(pairs) = self.len.checked_add(additional) else {
            return Err(Cause::TooLarge);
        };
        self.fit(pairs, self.factor, sharing)
    }

    /// Makes the slots in which `pairs` pairs meet this load factor, and sets it. It also makes
    /// room for `sharing` more pairs that share a slot with another.
    fn fit(&mut self, pairs: usize, thousandths: usize, sharing: usize) -> Result<(), Cause> {
        let before = self.table.capacity();
        let Some(capacity) = wanted_capacity(pairs, before, thousandths) else {
            return Err(Cause::TooLarge);
        };
        if self.table.grow_to(capacity, sharing).is_err() {
            return Err(Cause::Memory);
        }
        keep_if_same(&mut self.reserved, capacity, before);
        self.table.count_further(&mut self.reserved, sharing);
        self.factor = thousandths;
        self.threshold = threshold_of(capacity, thousandths);
        Ok(())
    }

    /// The load factor, in thousandths. It never fails.
    pub fn get_load_factor(&self) -> usize {
        self.factor
    }
}
