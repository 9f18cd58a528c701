//! Entries of a map that a guard holds, so that it is made whole if a key's `number` panics, and the
//! insertion by an entry that needs no guard.
//!
//! A proved insertion by an entry takes the entry, and the map with it. So an entry of the map is
//! made again, once for the time of that call, and once behind it.
use super::{Entry, OccupiedEntry, VacantEntry};
use crate::memory::alloc::Allocator;
use crate::proved::map::map::IntMap;
use crate::proved::table::IntKey;
use crate::proved::table::table::locate::Location;
use crate::proved::table::table::stored::Sought;

/// Where a pair lies: its slot, and its place there from the front.
pub struct Place {
    slot: usize,
    place: usize,
}

/// What an entry has beside its map.
pub enum Found<K> {
    /// Where the pair of the key lies.
    Present(Place),
    /// A key that is absent, and its slot.
    Absent(K, usize),
}

impl<'a, K: IntKey, V, A: Allocator + Copy> Entry<'a, K, V, A> {
    /// The map, and what else the entry has.
    #[inline(always)]
    pub fn parted(self) -> (&'a mut IntMap<K, V, A>, Found<K>) {
        match self {
            Entry::Occupied(OccupiedEntry { map, slot, place }) => {
                (map, Found::Present(Place { slot, place }))
            }
            Entry::Vacant(VacantEntry { map, key, slot }) => (map, Found::Absent(key, slot)),
        }
    }
}

impl<K: IntKey, V, A: Allocator + Copy> OccupiedEntry<'_, K, V, A> {
    /// Where the pair of the entry lies.
    #[inline(always)]
    pub fn place(self) -> Place {
        Place { slot: self.slot, place: self.place }
    }
}


impl<'a, K: IntKey, V, A: Allocator + Copy> VacantEntry<'a, K, V, A> {
    /// The map, the key that is absent, and its slot.
    #[inline(always)]
    pub fn parted(self) -> (&'a mut IntMap<K, V, A>, K, usize) {
        (self.map, self.key, self.slot)
    }

    /// Inserts the pair if its slot holds none and the map needn't grow. Otherwise it returns the
    /// entry and the value. No `number` of a key is called once the slot has changed.
    #[inline(always)]
    pub fn insert_first(self, value: V) -> Result<&'a mut V, (Self, V)> {
        let VacantEntry { map, key, slot } = self;
        if map.takes_first(slot) {
            map.add_first(slot, Sought::new(key), value);
            return Ok(map.value_mut_in(slot, 0));
        }
        Err((VacantEntry { map, key, slot }, value))
    }
}

impl<K: IntKey, V, A: Allocator + Copy> IntMap<K, V, A> {
    /// The entry of a key that is absent, whose slot is given. The key isn't looked up.
    #[inline(always)]
    pub fn vacant_entry(&mut self, key: K, slot: usize) -> VacantEntry<'_, K, V, A> {
        VacantEntry { map: self, key, slot }
    }

    /// The entry that had this beside the map. No key is looked up.
    #[inline(always)]
    pub fn entry_of(&mut self, found: Found<K>) -> Entry<'_, K, V, A> {
        match found {
            Found::Present(at) => Entry::Occupied(self.entry_at(at)),
            Found::Absent(key, slot) => Entry::Vacant(self.vacant_entry(key, slot)),
        }
    }

    /// The entry of the pair at a place. No key is looked up.
    #[inline(always)]
    pub fn entry_at(&mut self, at: Place) -> OccupiedEntry<'_, K, V, A> {
        OccupiedEntry { map: self, slot: at.slot, place: at.place }
    }
}
