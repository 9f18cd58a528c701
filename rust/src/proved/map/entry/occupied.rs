//! Entries of present keys.

use crate::memory::prelude::*;
use crate::proved::map::entry::OccupiedEntry;
use crate::proved::map::map::IntMap;
use crate::proved::table::IntKey;
use crate::memory::alloc::Allocator;
use core::mem;

impl<'a, K: IntKey, V, A: Allocator + Copy> OccupiedEntry<'a, K, V, A> {
    /// The key.
    pub fn key(&self) -> &K {
        self.map.key_at(self.slot, self.place)
    }

    /// The value of the key.
    #[inline(always)]
    pub fn get(&self) -> &V {
        self.map.value_in(self.slot, self.place)
    }

    /// A mutable reference to the value of the key. It can't outlive the entry; `into_mut` returns
    /// one that lasts as long as the map is borrowed.
    #[inline(always)]
    pub fn get_mut(&mut self) -> &mut V {
        let slot = self.slot;
        let place = self.place;
        self.map.value_mut_in(slot, place)
    }

    /// A mutable reference to the value of the key, for as long as the map is borrowed.
    #[inline(always)]
    pub fn into_mut(self) -> &'a mut V {
        let OccupiedEntry { map, slot, place } = self;
        map.value_mut_in(slot, place)
    }

    /// Sets the value of the key in its place, and returns the old value.
    #[inline]
    pub fn insert(&mut self, value: V) -> V {
        mem::replace(self.get_mut(), value)
    }

    /// Removes the pair of the key, as [`IntMap::remove`](crate::proved::map::IntMap::remove) does, and returns
    /// its value.
    #[inline]
    pub fn remove(self) -> V {
        self.remove_entry().1
    }

    /// Removes the pair of the key and returns it. It does what [`remove`](OccupiedEntry::remove)
    /// does, and returns the key beside the value.
    pub fn remove_entry(self) -> (K, V) {
        let slot = self.slot;
        let place = self.place;
        let at = self.map.location(slot, place);
        (at.key, self.map.take_at(at))
    }

    /// Removes the pair of the key, and hands its value to the closure, which is called once. If
    /// the closure returns `Ok`, the call returns what is in it, and the pair is gone as after
    /// [`remove`](OccupiedEntry::remove).
    ///
    /// If the closure returns a value as its error, the one that it got or another, the call
    /// returns `None`, and the key has the returned value. Its pair is then at the end of its slot,
    /// where [`IntMap::insert`](crate::proved::map::IntMap::insert) of a present key puts it. That needs no
    /// memory, so the call never fails. The closure must be callable at the value of the key.
    pub fn hand_over<R, F: FnOnce(V) -> Result<R, V>>(self, f: F) -> Option<R> {
        let slot = self.slot;
        let place = self.place;
        let at = self.map.location(slot, place);
        self.map.hand_over_at(at, f)
    }
}
