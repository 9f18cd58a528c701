//! The pairs of a table, slot after slot, each with a mutable reference to its value.
pub use super::slots::written::{PairsMut, Spot, SpotsMut};

use super::{Location, Slots, Table};
use crate::proved::table::kept::Kept;
use crate::memory::alloc::{Allocator, Global};
use crate::proved::table::IntKey;

impl<K: IntKey, X> Table<K, X, Global> {
    /// No slots, for iterators without items. It has no slot for a key.
    pub const NONE: Self = Table { slots: Slots::NONE };
}

impl<K: IntKey, X, A: Allocator> Table<K, X, A> {
    /// The pairs, slot after slot, each with a mutable reference to its value.
    pub fn pairs_mut(&mut self) -> PairsMut<'_, K, X, A> {
        self.slots.pairs_mut()
    }

    /// Where a located pair lies.
    pub fn spot_of(&self, at: Location<K>) -> Option<Spot> {
        self.slots.spot_of(at.slot, at.place)
    }

    /// The values at spots in ascending order, by mutable reference.
    pub fn spots_mut(&mut self) -> SpotsMut<'_, K, X> {
        self.slots.spots_mut()
    }
}

impl<K: IntKey, V, A: Allocator> Table<K, Kept<V>, A> {
    /// Keeps the pairs for which the closure returns true, and returns their number.
    pub fn retain_mut<F: FnMut(K, &mut V) -> bool>(&mut self, f: &mut F) -> usize {
        self.slots.retain_mut(f)
    }
}
