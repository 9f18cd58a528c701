//! Growth of a table, with a new pair or without one.

use crate::memory::prelude::*;
use crate::proved::table::key::IntKey;
use crate::proved::table::steps::Steps;
use crate::proved::table::table::locate::Location;
use crate::proved::table::table::stored::{Sought, Stored};
use crate::proved::table::table::{Table, index_of};
use crate::memory::alloc::{AllocError, Allocator};

impl<K: IntKey, X, A: Allocator + Copy> Table<K, X, A> {
    /// Puts the pair of an absent key behind the pairs of its slot, moves all pairs, in the order
    /// of the walk, to their slots among `capacity` slots, and returns where the new pair is. If an
    /// allocation fails, the value is returned and nothing changes.
    pub fn grow_and_add(
        &mut self,
        capacity: usize,
        slot: usize,
        key: Sought<K>,
        value: X,
        placed: &mut Steps,
    ) -> Result<Location<K>, X> {
        let target = index_of(&key, capacity);
        let pair = (Stored::new(key.copied()), value);
        let pushed = self
            .slots
            .grow_and_push(capacity, slot, target, pair, placed);
        let place = match pushed {
            Ok(place) => place,
            Err((_, value)) => return Err(value),
        };
        Ok(Location {
            key: key.key(),
            slot: target,
            place,
        })
    }

    /// Moves all pairs, in the order of the walk, to their slots among `capacity` slots. If the
    /// table has that many already, no pair moves. It also makes room for `additional` more pairs
    /// that share a slot. If an allocation fails, nothing changes.
    pub fn grow_to(&mut self, capacity: usize, additional: usize) -> Result<(), AllocError> {
        if capacity == self.slots.len() {
            return self.slots.reserve(additional);
        }
        self.slots.grow(capacity, additional, &mut Steps::new())
    }
}
