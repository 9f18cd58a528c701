//! Insertions.

use crate::memory::prelude::*;
use crate::proved::map::load::{takes_one_more, threshold_of, wanted_capacity};
use crate::proved::map::map::IntMap;
use crate::proved::map::refusal::{Cause, Refused};
use crate::proved::table::IntKey;
use crate::proved::table::kept::Kept;
use crate::proved::table::steps::Steps;
use crate::proved::table::table::locate::Location;
use crate::proved::table::table::stored::Sought;
use crate::memory::alloc::Allocator;

/// Where the pair of a key can be put at once: into its slot, which holds no pair, or into the place
/// of the first pair of its slot. `Other` is a slot for which neither is so.
#[derive(Clone, Copy)]
pub(in crate::proved::map) enum Spot {
    Vacant(usize),
    First(usize),
    Other(usize),
}

impl<K: IntKey, V, A: Allocator + Copy> IntMap<K, V, A> {
    /// Inserts the pair of the key and the value at the end of its slot, and returns the value that
    /// the key had before, or `None` if the key is new. If the key was present, the last pair of
    /// the slot first takes the place of the old pair, and the capacity stays.
    ///
    /// For a new key, the load is checked if the new length has its bit of value 4 set: 4 to 7, 12
    /// to 15, 20 to 23, and so on. If the pairs then exceed the load factor, all of them move to a
    /// table of the least doubled capacity that meets it, in iteration order, with the new pair
    /// last.
    ///
    /// The insertion of a present key never fails. The insertion of a new key fails with
    /// [`Cause::TooLarge`] if and only if the map holds 2^64 - 1 pairs or growth needs more than
    /// 2^63 slots, and otherwise with [`Cause::Memory`] if an allocation fails. It allocates
    /// nothing if the capacity stays and the slot holds no pair. A failed call returns the value
    /// and leaves the map as it was. Only the count of compared keys, which takes no memory,
    /// changes.
    #[inline(always)]
    pub fn insert(&mut self, key: K, value: V) -> Result<Option<V>, Refused<V>> {
        let key = Sought::new(key);
        match self.spot_for(&key) {
            Spot::Vacant(slot) => {
                self.add_first(slot, key, value);
                Ok(None)
            }
            Spot::First(slot) => Ok(Some(self.replace_first(slot, key, value))),
            Spot::Other(slot) => super::mending::held(self, |map| map.insert_otherwise(slot, key, value)),
        }
    }

    /// Where the pair of a key can be put at once. If the slot of the key holds a pair, the first
    /// one there is compared.
    #[inline(always)]
    pub(in crate::proved::map) fn spot_for(&mut self, key: &Sought<K>) -> Spot {
        let slot = self.table.slot_of(key);
        if self.takes_first(slot) {
            return Spot::Vacant(slot);
        }
        if self.table.first_is(slot, key, &mut self.compared) {
            return Spot::First(slot);
        }
        Spot::Other(slot)
    }

    /// Whether a slot holds no pair, and the map needn't grow for one more.
    #[inline(always)]
    pub(in crate::proved::map) fn takes_first(&self, slot: usize) -> bool {
        self.table.is_vacant(slot) && self.takes_one_more()
    }

    /// Whether the map needn't grow for one more pair.
    #[inline(always)]
    fn takes_one_more(&self) -> bool {
        takes_one_more(self.len, self.threshold)
    }

    /// Adds the pair of a key to its slot, which holds none. The map needn't grow.
    #[inline(always)]
    pub(in crate::proved::map) fn add_first(&mut self, slot: usize, key: Sought<K>, value: V) {
        self.table.fill(slot, key, Kept::new(value));
        self.len += 1;
    }

    /// Replaces the pair of a key, which is the first one of its slot, and returns the old value.
    /// The last pair of the slot takes its place, and the pair of the key and this value is put
    /// last. It allocates nothing.
    #[inline(always)]
    pub(in crate::proved::map) fn replace_first(&mut self, slot: usize, key: Sought<K>, value: V) -> V {
        self.table
            .replace_first(slot, key, Kept::new(value))
            .into_value()
    }

    /// Inserts the pair of a key and a value as `insert` does, if it can't be put at once. Keys are
    /// compared from the second pair of the slot on, up to the one sought.
    #[inline(never)]
    pub(in crate::proved::map) fn insert_otherwise(
        &mut self,
        slot: usize,
        key: Sought<K>,
        value: V,
    ) -> Result<Option<V>, Refused<V>> {
        let adds = self.takes_one_more();
        let again = key.copied();
        match self
            .table
            .put(slot, key, Kept::new(value), adds, &mut self.compared)
        {
            Ok(Some(old)) => Ok(Some(old.into_value())),
            Ok(None) => {
                self.len += 1;
                Ok(None)
            }
            Err(kept) => match self.grow_or_fail(slot, again, kept, adds) {
                Ok(()) => Ok(None),
                Err(refused) => Err(refused),
            },
        }
    }

    /// Adds the pair of an absent key that the table didn't take as it is. If `adds` is true, the
    /// map needn't grow: an allocation failed, and the value is returned. Otherwise the map grows.
    #[inline(always)]
    fn grow_or_fail(
        &mut self,
        slot: usize,
        key: Sought<K>,
        kept: Kept<V>,
        adds: bool,
    ) -> Result<(), Refused<V>> {
        let value = kept.into_value();
        if adds {
            return Err(Refused {
                value,
                cause: Cause::Memory,
            });
        }
        match self.add_growing(slot, key, value) {
            Ok(_) => Ok(()),
            Err(refused) => Err(refused),
        }
    }

    /// Inserts the pair if the key is absent, and returns whether it inserted it. If the key is
    /// present, the value is dropped, and only the count of compared keys changes.
    ///
    /// For a new key it does what [`insert`](IntMap::insert) does, and fails as that does.
    #[inline(always)]
    pub fn insert_checked(&mut self, key: K, value: V) -> Result<bool, Refused<V>> {
        let sought = Sought::new(key);
        match self.spot_for(&sought) {
            Spot::Vacant(slot) => {
                self.add_first(slot, sought, value);
                Ok(true)
            }
            Spot::First(_) => Ok(false),
            Spot::Other(slot) => super::mending::held(self, |map| map.insert_checked_otherwise(slot, sought, value)),
        }
    }

    /// Inserts the pair of a key and a value as `insert_checked` does, if the first place of the
    /// slot doesn't settle it. Keys are compared from the second pair of the slot on, up to the one
    /// sought.
    #[inline(never)]
    fn insert_checked_otherwise(
        &mut self,
        slot: usize,
        key: Sought<K>,
        value: V,
    ) -> Result<bool, Refused<V>> {
        let adds = self.takes_one_more();
        let again = key.copied();
        match self
            .table
            .add_checked(slot, key, Kept::new(value), adds, &mut self.compared)
        {
            Ok(true) => {
                self.len += 1;
                Ok(true)
            }
            Ok(false) => Ok(false),
            Err(kept) => match self.grow_or_fail(slot, again, kept, adds) {
                Ok(()) => Ok(true),
                Err(refused) => Err(refused),
            },
        }
    }

    /// Adds the pair of an absent key in its slot, and returns where it is. It compares no key.
    #[inline(always)]
    pub(in crate::proved::map) fn add(
        &mut self,
        slot: usize,
        key: Sought<K>,
        value: V,
    ) -> Result<Location<K>, Refused<V>> {
        if !self.takes_one_more() {
            // taken apart, since the compiler otherwise writes the location byte by byte
            match self.add_growing(slot, key, value) {
                Ok(at) => return Ok(at),
                Err(refused) => return Err(refused),
            }
        }
        match self.table.add(slot, key, Kept::new(value)) {
            Ok(at) => {
                self.len += 1;
                Ok(at)
            }
            Err(kept) => Err(Refused {
                value: kept.into_value(),
                cause: Cause::Memory,
            }),
        }
    }

    /// Adds the pair of an absent key, if the slots don't take one more, and returns where it is.
    /// All memory is allocated before a pair moves.
    #[inline(never)]
    fn add_growing(
        &mut self,
        slot: usize,
        key: Sought<K>,
        value: V,
    ) -> Result<Location<K>, Refused<V>> {
        if self.len == usize::MAX {
            return Err(Refused {
                value,
                cause: Cause::TooLarge,
            });
        }
        let len = self.len + 1;
        let Some(capacity) = wanted_capacity(len, self.table.capacity(), self.factor) else {
            return Err(Refused {
                value,
                cause: Cause::TooLarge,
            });
        };
        let threshold = threshold_of(capacity, self.factor);
        match self
            .table
            .grow_and_add(capacity, slot, key, Kept::new(value), &mut self.placed)
        {
            Ok(at) => {
                self.len = len;
                self.threshold = threshold;
                self.reserved = Steps::new();
                Ok(at)
            }
            Err(kept) => Err(Refused {
                value: kept.into_value(),
                cause: Cause::Memory,
            }),
        }
    }
}
