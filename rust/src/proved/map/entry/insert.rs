//! Insertions at an entry. Some take a closure, which makes the value only if the key is absent,
//! and may fail to make it. Others return the entry of the key.

use crate::memory::prelude::*;
use crate::proved::map::entry::{Entry, OccupiedEntry, VacantEntry};
use crate::proved::map::refusal::Refused;
use crate::proved::table::IntKey;
use crate::proved::table::table::stored::Sought;
use crate::memory::alloc::Allocator;
impl<'a, K: IntKey, V, A: Allocator + Copy> VacantEntry<'a, K, V, A> {
    /// Inserts the pair of the key and the value as [`insert`](VacantEntry::insert) does, and
    /// returns the entry of the key, which is then present. It fails as that does.
    #[inline(always)]
    pub fn insert_entry(self, value: V) -> Result<OccupiedEntry<'a, K, V, A>, Refused<V>> {
        let VacantEntry { map, key, slot } = self;
        let at = match map.add(slot, Sought::new(key), value) {
            Ok(at) => at,
            Err(refused) => return Err(refused),
        };
        Ok(OccupiedEntry {
            map,
            slot: at.slot,
            place: at.place,
        })
    }
}

impl<'a, K: IntKey, V, A: Allocator + Copy> Entry<'a, K, V, A> {
    /// Sets the value of the key, and returns its entry. If the key is present, its value is
    /// replaced in place, the old value is dropped, and the call never fails. If the key is absent,
    /// the pair is inserted, and this fails as [`VacantEntry::insert`] does.
    pub fn insert_entry(self, value: V) -> Result<OccupiedEntry<'a, K, V, A>, Refused<V>> {
        match self {
            Entry::Occupied(entry) => {
                // taken apart before the write, so that the proof follows the map into the result
                let OccupiedEntry { map, slot, place } = entry;
                *map.value_mut_in(slot, place) = value;
                Ok(OccupiedEntry { map, slot, place })
            }
            Entry::Vacant(entry) => entry.insert_entry(value),
        }
    }
}
