//! Removals.

use crate::memory::prelude::*;
use crate::proved::map::map::IntMap;
use crate::proved::table::IntKey;
use crate::proved::table::table::front::Front;
use crate::memory::alloc::Allocator;

impl<K: IntKey, V, A: Allocator + Copy> IntMap<K, V, A> {
    /// Removes the pair of the key and returns its value, or `None` if the key is absent. The last
    /// pair of the slot takes the place of the removed one. It never fails.
    #[inline(always)]
    pub fn remove(&mut self, key: K) -> Option<V> {
        let Some(kept) = self.table.remove(key, &mut self.compared) else {
            return None;
        };
        self.len -= 1;
        Some(kept.into_value())
    }

    /// The same as [`remove`](IntMap::remove), but it returns the key beside its value. It never
    /// fails.
    pub fn remove_entry(&mut self, key: K) -> Option<(K, V)> {
        let value = self.remove(key)?;
        Some((key, value))
    }

    /// Removes the first pair of the walk and returns it, or `None` if there is none. It serves a
    /// type that holds a map and has an iterator of its own; [`drain`](IntMap::drain) is the
    /// map's own.
    ///
    /// The search begins at the slot number `from`. No slot before it may hold a pair, so begin
    /// with 0. The call sets `from` to the number of the slot that held the pair, so the next call
    /// goes on from there. If there is no pair, `from` stays.
    ///
    /// The other pairs of the slot move up by one place. It allocates nothing and never fails. Its
    /// time doesn't depend on how many pairs share the slot.
    #[inline(always)]
    pub fn take_front(&mut self, from: &mut usize) -> Option<(K, V)> {
        let Some((key, kept)) = self.table.take_front(from) else {
            return None;
        };
        self.len -= 1;
        Some((key, kept.into_value()))
    }

    /// Removes the first pair of the walk and returns it. All pairs before the front were taken.
    #[inline(always)]
    pub(in crate::proved::map) fn take_next(&mut self, front: &mut Front) -> Option<(K, V)> {
        let Some((key, kept)) = self.table.take_next(front) else {
            return None;
        };
        self.len -= 1;
        Some((key, kept.into_value()))
    }
}

impl<K: IntKey, V, A: Allocator + Copy> IntMap<K, V, A> {
    /// Drops all pairs, in iteration order. The capacity, the load factor and both counts stay, and
    /// the map keeps its memory for later pairs. It goes through the slots that hold a pair, and
    /// never fails.
    pub fn clear(&mut self) {
        self.table.clear();
        self.len = 0;
    }
}

impl<K: IntKey, V, A: Allocator + Copy> IntMap<K, V, A> {
    /// Keeps the pairs for which the closure returns true, and drops the others. The closure is
    /// called once for each pair, in iteration order, with the key and a reference to the value.
    /// The next call sees what this one changed of the closure's state.
    ///
    /// The closure must be callable at these pairs in this order, each time in the state that the
    /// call before left. Nothing is required of other keys, values and calls.
    ///
    /// The pairs that stay keep their order. The capacity, the load factor and both counts stay,
    /// and the map keeps its memory for later pairs. It never fails and allocates nothing. Apart
    /// from the calls of the closure, its time grows with the numbers of pairs and slots, however
    /// many pairs share a slot.
    pub fn retain<F: FnMut(K, &V) -> bool>(&mut self, f: F) {
        let mut f = f;
        self.len = self.table.retain(&mut f);
    }
}
