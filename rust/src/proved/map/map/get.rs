//! Look-ups.

use crate::memory::prelude::*;
use crate::proved::map::map::IntMap;
use crate::proved::table::IntKey;
use crate::proved::table::steps::Steps;
use crate::memory::alloc::Allocator;
impl<K: IntKey, V, A: Allocator + Copy> IntMap<K, V, A> {
    /// The value of the key, or `None` if the key is absent. It never fails.
    #[inline]
    pub fn get(&self, key: K) -> Option<&V> {
        let mut steps = Steps::new();
        self.get_counted(key, &mut steps)
    }

    /// The first pair of the walk, or `None` if the map is empty. It never fails.
    pub fn first_key_value(&self) -> Option<(&K, &V)> {
        self.iter().next()
    }

    /// The same as [`get`](IntMap::get), but each comparison of a stored key with the sought one is
    /// counted in `steps`. The keys that agree with the sought one modulo the capacity are compared
    /// in iteration order, up to the key itself. It never fails.
    #[inline(always)]
    pub fn get_counted(&self, key: K, steps: &mut Steps) -> Option<&V> {
        let Some((_, kept)) = self.table.pair_of(key, steps) else {
            return None;
        };
        Some(kept.get())
    }

    /// A mutable reference to the value of the key, or `None` if the key is absent. Only the count
    /// of compared keys changes besides that value. It never fails.
    #[inline]
    pub fn get_mut(&mut self, key: K) -> Option<&mut V> {
        self.table.value_mut_of(key, &mut self.compared)
    }

    /// The key as the map holds it, with its value, or `None` if the key is absent. It never fails.
    pub fn get_key_value(&self, key: K) -> Option<(&K, &V)> {
        let mut steps = Steps::new();
        let Some((found, kept)) = self.table.pair_of(key, &mut steps) else {
            return None;
        };
        Some((found, kept.get()))
    }

    /// Whether the key is present. It never fails.
    #[inline]
    pub fn contains_key(&self, key: K) -> bool {
        let mut steps = Steps::new();
        self.get_counted(key, &mut steps).is_some()
    }
}
