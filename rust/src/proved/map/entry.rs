//! Entries: a map with a key that was looked up once, to read, write, remove or insert its pair.

mod insert;
mod occupied;
mod vacant;

use crate::memory::prelude::*;
use crate::proved::map::map::IntMap;
use crate::proved::map::refusal::Refused;
use crate::proved::table::IntKey;
use crate::proved::table::table::stored::Sought;
use crate::memory::alloc::{Allocator, Global};

/// A map with a key that was looked up in it, made by [`IntMap::entry`].
pub enum Entry<'a, K, V, A: Allocator + Copy = Global> {
    /// The key is present.
    Occupied(OccupiedEntry<'a, K, V, A>),
    /// The key is absent.
    Vacant(VacantEntry<'a, K, V, A>),
}

/// A map with a key that is present in it.
pub struct OccupiedEntry<'a, K, V, A: Allocator + Copy = Global> {
    map: &'a mut IntMap<K, V, A>,
    slot: usize,
    place: usize,
}

/// A map with a key that is absent from it.
pub struct VacantEntry<'a, K, V, A: Allocator + Copy = Global> {
    map: &'a mut IntMap<K, V, A>,
    key: K,
    slot: usize,
}

impl<K: IntKey, V, A: Allocator + Copy> IntMap<K, V, A> {
    /// An entry of the key: [`Occupied`](Entry::Occupied) if the key is present, and otherwise
    /// [`Vacant`](Entry::Vacant). The key is looked up as by [`get_counted`](IntMap::get_counted),
    /// and no call of the entry compares a key again. It never fails.
    ///
    /// The entry borrows the map. Dropping it without another call leaves the map as it was, except
    /// for the count of compared keys. A caller's proof knows this of an entry that a `match` takes
    /// apart, and of any entry that is ended by [`OccupiedEntry::leave`] or [`Entry::into_map`].
    #[inline(always)]
    pub fn entry(&mut self, key: K) -> Entry<'_, K, V, A> {
        match self.locate(&Sought::new(key)) {
            Ok(at) => Entry::Occupied(OccupiedEntry {
                map: self,
                slot: at.slot,
                place: at.place,
            }),
            Err(slot) => Entry::Vacant(VacantEntry {
                map: self,
                key,
                slot,
            }),
        }
    }
}

impl<'a, K: IntKey, V, A: Allocator + Copy> Entry<'a, K, V, A> {
    /// If the key is present, calls the closure with a mutable reference to its value. The call
    /// returns the entry. If the key is present, the closure must be callable at its value.
    #[inline(always)]
    pub fn and_modify<F: FnOnce(&mut V)>(self, f: F) -> Entry<'a, K, V, A> {
        match self {
            Entry::Occupied(mut entry) => {
                f(entry.get_mut());
                Entry::Occupied(entry)
            }
            Entry::Vacant(entry) => {
                entry.map.known();
                Entry::Vacant(entry)
            }
        }
    }
}

// Only Rust has what follows. It is tested, not proved.
mod mending;
