//! New maps, and insertion of many pairs.

use crate::memory::prelude::*;
use crate::proved::map::load::{GREATEST_CAPACITY, threshold_of, wanted_capacity};
use crate::proved::map::map::IntMap;
use crate::proved::map::refusal::{Cause, RefusedPair};
use crate::proved::table::IntKey;
use crate::proved::table::steps::Steps;
use crate::proved::table::table::Table;
use crate::memory::alloc::Allocator;

/// The number of slots of a map that `new` makes.
const FIRST_CAPACITY: usize = 4;

/// The least number of slots.
const LEAST_CAPACITY: usize = 2;

/// The load factor of a new map, in thousandths.
const FIRST_FACTOR: usize = 909;

impl<K: IntKey, V, A: Allocator + Copy> IntMap<K, V, A> {
    /// An empty map of 4 slots, with a load factor of 909 thousandths. It allocates the slots and
    /// their bits. It fails only if an allocation fails, with [`Cause::Memory`].
    pub fn new(alloc: A) -> Result<IntMap<K, V, A>, Cause> {
        IntMap::of_slots(alloc, FIRST_CAPACITY)
    }

    /// An empty map with a load factor of 909 thousandths. Its number of slots is the least power
    /// of two that is at least `capacity`, and at least 2. To make room for pairs, call
    /// [`with_room_for`](IntMap::with_room_for). It fails with [`Cause::TooLarge`] if and only if
    /// `capacity` is above 2^63, and otherwise with [`Cause::Memory`] if an allocation fails.
    pub fn with_capacity(alloc: A, capacity: usize) -> Result<IntMap<K, V, A>, Cause> {
        if capacity > GREATEST_CAPACITY {
            return Err(Cause::TooLarge);
        }
        IntMap::of_slots(alloc, capacity.max(LEAST_CAPACITY).next_power_of_two())
    }

    /// An empty map with room for `pairs` pairs, and a load factor of 909 thousandths. Its number
    /// of slots is the least power of two, from 2 on, in which so many pairs meet the load factor.
    /// [`reserve_pairs`](IntMap::reserve_pairs) makes the same of an empty map of two slots, but
    /// this call allocates the slots once.
    ///
    /// Insertions of keys that follow one another, such as ids, then don't fail, as
    /// [`reserve_pairs`](IntMap::reserve_pairs) says. Other keys may share a slot, and then
    /// allocate.
    ///
    /// It fails with [`Cause::TooLarge`] if and only if no capacity up to 2^63 meets the load
    /// factor, and otherwise with [`Cause::Memory`] if an allocation fails.
    pub fn with_room_for(alloc: A, pairs: usize) -> Result<IntMap<K, V, A>, Cause> {
        let Some(slots) = wanted_capacity(pairs, LEAST_CAPACITY, FIRST_FACTOR) else {
            return Err(Cause::TooLarge);
        };
        IntMap::of_slots(alloc, slots)
    }

    /// An empty map of `slots` slots. It fails only if an allocation fails.
    fn of_slots(alloc: A, slots: usize) -> Result<IntMap<K, V, A>, Cause> {
        match Table::new(alloc, slots) {
            Ok(table) => Ok(IntMap {
                table,
                len: 0,
                threshold: threshold_of(slots, FIRST_FACTOR),
                factor: FIRST_FACTOR,
                placed: Steps::new(),
                compared: Steps::new(),
                reserved: Steps::new(),
            }),
            Err(_) => Err(Cause::Memory),
        }
    }
}

impl<K: IntKey, V, A: Allocator + Copy> IntMap<K, V, A> {
    /// Inserts the iterator's pairs in turn, each as [`insert`](IntMap::insert) does, so a key
    /// keeps the last of its values. The table grows only as these insertions make it grow: nothing
    /// is reserved ahead. The iterator must be ready for a call of `next`, and must end.
    ///
    /// It stops at the first insertion that fails, and returns the key and the value of that pair,
    /// with the cause and the number of pairs before it. Those pairs stay in the map. The iterator
    /// is dropped, with the pairs that it hasn't given.
    pub fn extend<I: Iterator<Item = (K, V)>>(
        &mut self,
        iter: I,
    ) -> Result<(), RefusedPair<K, V>> {
        self.known();
        let mut applied: usize = 0;
        for (key, value) in iter {
            match self.insert(key, value) {
                Ok(_) => {}
                Err(refused) => {
                    return Err(RefusedPair {
                        key,
                        value: refused.value,
                        applied,
                        cause: refused.cause,
                    });
                }
            }
            applied = applied.saturating_add(1);
        }
        Ok(())
    }

    /// A map of the iterator's pairs: [`with_capacity`](IntMap::with_capacity) of the lower bound
    /// of its `size_hint`, and then [`extend`](IntMap::extend). The iterator must be ready for a
    /// call of `next`, and must end.
    ///
    /// It fails if either call fails, with the same cause, and then drops everything.
    pub fn from_iter<I: Iterator<Item = (K, V)>>(
        alloc: A,
        iter: I,
    ) -> Result<IntMap<K, V, A>, Cause> {
        let (lower, _) = iter.size_hint();
        let mut map = IntMap::with_capacity(alloc, lower)?;
        match map.extend(iter) {
            Ok(()) => Ok(map),
            Err(refused) => Err(refused.cause),
        }
    }
}
