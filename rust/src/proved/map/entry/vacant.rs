//! Entries of absent keys.

use crate::memory::prelude::*;
use crate::proved::map::entry::VacantEntry;
use crate::proved::map::map::IntMap;
use crate::proved::map::refusal::Refused;
use crate::proved::table::IntKey;
use crate::proved::table::table::stored::Sought;
use crate::memory::alloc::Allocator;

impl<'a, K: IntKey, V, A: Allocator + Copy> VacantEntry<'a, K, V, A> {
    /// The key.
    pub fn key(&self) -> &K {
        &self.key
    }

    /// The key that was looked up. This ends the entry and leaves the map with the key still
    /// absent.
    pub fn into_key(self) -> K {
        let VacantEntry { key, .. } = self;
        key
    }
}
