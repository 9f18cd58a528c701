//! A table of slots. Each key has one of them.
//!
//! The calls here look at the slot of one key, or at the table as a whole. `locate` has the calls
//! on a pair whose place is known, `put` those that put a pair into its slot, `walk`, `keep`,
//! `front` and `closures` those that go through the pairs, `owned` the pairs by value, and `grow`
//! the growth. `slots` has the slots themselves, `stored` the keys in them, and `closure_calls`
//! single calls of a closure.

pub(in crate::proved::table) mod closure_calls;
mod closures;
pub mod front;
mod grow;
pub mod locate;
pub mod owned;
mod put;
mod slots;
pub mod stored;

use crate::memory::prelude::*;
use crate::proved::table::key::IntKey;
use crate::proved::table::steps::Steps;
use crate::proved::table::table::stored::{Sought, Stored};
pub use closures::Progress;
use locate::Location;
use slots::Slots;
pub use slots::walk::Pairs;
use crate::memory::alloc::{AllocError, Allocator};

/// An odd number. A key's number, times this one, modulo the number of slots is the key's slot.
/// Only the low bits of the number count: two keys share a slot if and only if their numbers are
/// equal modulo the number of slots. Since this number is odd, it permutes the slots and makes no
/// keys share one.
const MULTIPLIER: u64 = 11400714819323198549;

/// The slot of a key with this number in a table of `mask + 1` slots.
#[inline(always)]
fn index_of_number(number: u64, mask: usize) -> usize {
    (number.wrapping_mul(MULTIPLIER) & mask as u64) as usize
}

/// The slot of a stored key in a table of `mask + 1` slots.
#[inline(always)]
fn masked_index_of<K: IntKey>(key: &Stored<K>, mask: usize) -> usize {
    index_of_number(key.key().number(), mask)
}

/// The slot of a key in a table of `slots` slots.
fn index_of<K: IntKey>(key: &Sought<K>, slots: usize) -> usize {
    index_of_number(key.number(), slots - 1)
}

/// Slots, whose number is a power of two. Each pair lies in the slot of its key.
pub struct Table<K, X, A: Allocator> {
    slots: Slots<K, X, A>,
}

impl<K: IntKey, X, A: Allocator> Table<K, X, A> {
    /// The number of slots.
    pub fn capacity(&self) -> usize {
        self.slots.len()
    }

    /// The number of slots that hold a pair.
    pub fn load(&self) -> usize {
        self.slots.count()
    }

    /// The number of pairs behind the first ones of their slots.
    fn further(&self) -> usize {
        self.slots.further()
    }

    /// Raises a count to the number of pairs behind the first ones of their slots, and `more`. A
    /// count that is greater stays.
    pub fn count_further(&self, count: &mut Steps, more: usize) {
        count.raise_to(self.further(), more);
    }

    /// The number of pairs that a slot holds.
    pub fn slot_len(&self, slot: usize) -> usize {
        self.slots.row_len(slot)
    }

    /// The pairs, slot after slot.
    pub fn pairs(&self) -> Pairs<'_, K, X, A> {
        self.slots.pairs()
    }

    /// The slot of a key.
    fn index_of(&self, key: &Sought<K>) -> usize {
        index_of_number(key.number(), self.slots.mask())
    }
}

impl<K: IntKey, X, A: Allocator> Table<K, X, A> {
    /// Drops all pairs, slot after slot, and keeps the slots and the memory that they have.
    pub fn clear(&mut self) {
        self.slots.clear();
    }
}

impl<K: IntKey, X, A: Allocator + Copy> Table<K, X, A> {
    /// Puts the pair of an absent key last in its slot, and returns where it is. If an allocation
    /// fails, it returns the value and changes nothing. A slot without a pair needs no allocation.
    #[inline(always)]
    pub fn add(&mut self, slot: usize, key: Sought<K>, value: X) -> Result<Location<K>, X> {
        let place = match self.slots.push(slot, (Stored::new(key.copied()), value)) {
            Ok(place) => place,
            Err((_, value)) => return Err(value),
        };
        Ok(Location {
            key: key.key(),
            slot,
            place,
        })
    }

    /// The allocator of the slots.
    pub fn allocator(&self) -> A {
        self.slots.allocator()
    }

    /// A table of `capacity` empty slots. It allocates the slots, then their bits, and writes no
    /// slot before.
    pub fn new(alloc: A, capacity: usize) -> Result<Table<K, X, A>, AllocError> {
        let slots = Slots::new(alloc, capacity, 0)?;
        Ok(Table { slots })
    }
}

impl<K: IntKey, X: Clone, A: Allocator + Copy> Table<K, X, A> {
    /// The same keys in the same slots, with clones of their values. The slots, their bits and the
    /// nodes of their further pairs are allocated before the first value is cloned.
    pub fn clone(&self) -> Result<Table<K, X, A>, AllocError> {
        let slots = self.slots.clone()?;
        Ok(Table { slots })
    }
}

// Only Rust has what follows. It is tested, not proved.
mod mending;
pub mod written;
