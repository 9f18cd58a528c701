//! Searches for the pair of a key, and calls on a pair whose place is known, which compare no key.

use crate::memory::prelude::*;
use crate::proved::table::kept::Kept;
use crate::proved::table::key::IntKey;
use crate::proved::table::steps::Steps;
use crate::proved::table::table::Table;
use crate::proved::table::table::closure_calls::hand_value;
use crate::proved::table::table::stored::{Sought, Stored};
use crate::memory::alloc::Allocator;

/// Where the pair of a key is: its slot, and its place there from the front.
#[derive(Clone, Copy)]
pub struct Location<K> {
    pub key: K,
    pub slot: usize,
    pub place: usize,
}

impl<K: IntKey, X, A: Allocator> Table<K, X, A> {
    /// Where the pair of the key is, or the slot of the key if the key is absent. The keys of the
    /// slot are compared from the front, up to the one sought. Each comparison is one step.
    #[inline(always)]
    pub fn locate(&self, key: &Sought<K>, steps: &mut Steps) -> Result<Location<K>, usize> {
        let slot = self.index_of(key);
        let Some(place) = self.slots.find(slot, key, steps) else {
            return Err(slot);
        };
        Ok(Location {
            key: key.key(),
            slot,
            place,
        })
    }

    /// The pair of the key, or `None` if the key is absent. The keys are compared as by
    /// [`locate`](Table::locate).
    #[inline(always)]
    pub fn pair_of(&self, key: K, steps: &mut Steps) -> Option<(&K, &X)> {
        let key = Sought::new(key);
        let slot = self.index_of(&key);
        let Some(pair) = self.slots.pair_of(slot, &key, steps) else {
            return None;
        };
        Some((pair.0.key(), &pair.1))
    }

    /// The key of the pair at a place of a slot.
    #[inline(always)]
    pub fn key_at(&self, slot: usize, place: usize) -> &K {
        self.slots.key_at(slot, place).key()
    }

    /// The value of the pair at a place of a slot.
    #[inline(always)]
    pub fn value_in(&self, slot: usize, place: usize) -> &X {
        self.slots.value_at(slot, place)
    }

    /// A mutable reference to the value of the pair at a place of a slot.
    #[inline(always)]
    pub fn value_mut_in(&mut self, slot: usize, place: usize) -> &mut X {
        self.slots.value_mut_at(slot, place)
    }

    /// Removes a located pair, and returns its value. The last pair of its slot moves into its
    /// place.
    #[inline(always)]
    pub fn take_at(&mut self, at: Location<K>) -> X {
        let (_, value) = self.slots.take_at(at.slot, at.place);
        value
    }

    /// Removes the pair of the key and returns its value, or `None` if the key is absent. The last
    /// pair of its slot moves into its place. The keys of the slot are compared from the front, up
    /// to the one sought. Each comparison is one step.
    #[inline(always)]
    pub fn remove(&mut self, key: K, steps: &mut Steps) -> Option<X> {
        let key = Sought::new(key);
        let slot = self.index_of(&key);
        self.slots.remove(slot, key, steps)
    }
}

impl<K: IntKey, V, A: Allocator> Table<K, Kept<V>, A> {
    /// A mutable reference to the value of the key, or `None` if the key is absent. The keys are
    /// compared as by [`locate`](Table::locate).
    #[inline(always)]
    pub fn value_mut_of(&mut self, key: K, steps: &mut Steps) -> Option<&mut V> {
        let key = Sought::new(key);
        let slot = self.index_of(&key);
        self.slots.value_mut_of(slot, &key, steps)
    }

    /// Removes a located pair, as `take_at` does, hands its value to the closure, and returns what
    /// the closure made of the value. If the closure returns an error, the pair of the key and the
    /// value in this error is put at the end of the slot, and the call returns `None`. It allocates
    /// nothing. While the closure runs, the pair is in no slot.
    pub fn hand_over<R, F: FnOnce(V) -> Result<R, V>>(&mut self, at: Location<K>, f: F) -> Option<R> {
        let (_, kept) = self.slots.take_at(at.slot, at.place);
        match hand_value(kept, f) {
            Ok(handed) => Some(handed),
            Err(back) => {
                self.slots
                    .put_back(at.slot, (Stored::new(Sought::new(at.key)), back));
                None
            }
        }
    }
}
