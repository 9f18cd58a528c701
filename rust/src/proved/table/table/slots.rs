//! The slots of a table, whose further pairs lie in the nodes of one pool. Contracts see the pairs
//! of each slot, its row, and for how many pairs behind the first ones there is memory. Which slots
//! hold a pair is known here alone.
//!
//! `pairs` has the calls on a pair of one slot, `closures` those with a closure, `keep` that which
//! removes pairs as bits say, `writing` that which lends a value and that which drops all pairs,
//! `walk` has the pairs by reference, `reached` those from a cursor on, `owned` those by value, and
//! `clone` copies the slots. Of growth, `grow` adds slots and goes over the old ones, and `refill`
//! puts each pair into its slot.

mod clone;
mod closures;
mod grow;
pub(in crate::proved::table) mod owned;
mod pairs;
mod refill;
pub mod walk;
mod writing;

use crate::memory::prelude::*;
use crate::proved::table::bits::{Bits, MarksLeft};
use crate::proved::table::key::IntKey;
use crate::proved::table::linked::node::{NOWHERE, Node};
use crate::proved::table::linked::pool::Pool;
use crate::proved::table::linked::row;
use crate::proved::table::steps::Steps;
use crate::proved::table::table::stored::{Sought, Stored};
use crate::memory::alloc::{AllocError, Allocator};
use walk::Pairs;

/// Slots, the nodes of their further pairs, and one bit for each slot, which says whether it holds
/// a pair.
pub(in crate::proved::table) struct Slots<K, X, A: Allocator> {
    /// Their number less one: a mask with exactly the bits that the number of a slot may have.
    mask: usize,
    bits: Bits<A>,
    slots: Vec<Node<(Stored<K>, X)>, A>,
    pool: Pool<(Stored<K>, X), A>,
}

impl<K: IntKey, X, A: Allocator> Slots<K, X, A> {
    /// Their number.
    pub(in crate::proved::table) fn len(&self) -> usize {
        self.slots.len()
    }

    /// Their number less one.
    #[inline(always)]
    pub(in crate::proved::table) fn mask(&self) -> usize {
        self.mask
    }

    /// How many of them hold a pair.
    pub(in crate::proved::table) fn count(&self) -> usize {
        self.bits.count()
    }

    /// The number of pairs of all slots: those that are first in their slots, and those in nodes.
    pub(in crate::proved::table) fn pair_count(&self) -> usize {
        self.bits.count() + self.pool.held()
    }

    /// The number of pairs of a slot.
    pub(in crate::proved::table) fn row_len(&self, index: usize) -> usize {
        row::len(&self.slots[index], &self.pool)
    }

    /// The place of the key's pair in a slot. The keys are compared from the front, up to the one
    /// sought. Each comparison is one step.
    #[inline(always)]
    pub(in crate::proved::table) fn find(&self, index: usize, key: &Sought<K>, steps: &mut Steps) -> Option<usize> {
        row::find(&self.slots[index], &self.pool, key, steps)
    }

    /// The key's pair in a slot. The keys are compared from the front, up to the one sought. Each
    /// comparison is one step.
    #[inline(always)]
    pub(in crate::proved::table) fn pair_of(
        &self,
        index: usize,
        key: &Sought<K>,
        steps: &mut Steps,
    ) -> Option<&(Stored<K>, X)> {
        row::pair_of(&self.slots[index], &self.pool, key, steps)
    }

    /// The stored key of the pair at a place of a slot.
    #[inline(always)]
    pub(in crate::proved::table) fn key_at(&self, index: usize, place: usize) -> &Stored<K> {
        let pair = row::pair_at(&self.slots[index], &self.pool, place);
        &pair.0
    }

    /// The value of the pair at a place of a slot.
    #[inline(always)]
    pub(in crate::proved::table) fn value_at(&self, index: usize, place: usize) -> &X {
        let pair = row::pair_at(&self.slots[index], &self.pool, place);
        &pair.1
    }

    /// Which slots from an index on hold a pair, as far as the word of this index says.
    #[inline(always)]
    pub(in crate::proved::table) fn marks_from(&self, from: usize) -> MarksLeft {
        self.bits.marks_from(from)
    }

    /// The first slot from an index on that holds a pair. Before the call `left` has the marks of
    /// its word from this index on, and afterwards those behind the returned slot. Slots before the
    /// index may change between two calls.
    #[inline(always)]
    pub(in crate::proved::table) fn next_in(&self, left: &mut MarksLeft, from: usize) -> Option<usize> {
        self.bits.next_in(left, from)
    }

    /// The first slot from an index on that holds a pair.
    #[inline(always)]
    pub(in crate::proved::table) fn next_filled(&self, from: usize) -> Option<usize> {
        let mut left = self.marks_from(from);
        self.next_in(&mut left, from)
    }

    /// Whether a slot holds a pair.
    #[inline(always)]
    pub(in crate::proved::table) fn holds_pair(&self, index: usize) -> bool {
        !self.slots[index].is_empty()
    }

    /// The pairs, slot after slot.
    #[inline(always)]
    pub(in crate::proved::table) fn pairs(&self) -> Pairs<'_, K, X, A> {
        Pairs {
            link: NOWHERE,
            filled: self.bits.iter(),
            slots: &self.slots,
            pool: &self.pool,
        }
    }
}

/// Adds slots without a pair, so that there are `count`. There is room for them.
#[inline(never)]
fn add_empty<P, A: Allocator>(slots: &mut Vec<Node<P>, A>, count: usize) {
    let make = || -> Node<P> { Node::empty() };
    if slots.resize_with(count, make).is_err() {
        unreachable!();
    }
}

impl<K: IntKey, X, A: Allocator + Copy> Slots<K, X, A> {
    /// The allocator of the slots.
    pub(in crate::proved::table) fn allocator(&self) -> A {
        *self.slots.allocator()
    }

    /// `capacity` slots without a pair, and room for `room` pairs that share a slot with another.
    /// It allocates the slots, then their bits, then the nodes if there is to be room, and writes
    /// no slot before.
    pub(in crate::proved::table) fn new(alloc: A, capacity: usize, room: usize) -> Result<Slots<K, X, A>, AllocError> {
        let mut slots = Vec::with_capacity(alloc, capacity)?;
        let bits = Bits::new(alloc, capacity)?;
        let pool = Pool::with_room(alloc, room)?;
        add_empty(&mut slots, capacity);
        Ok(Slots {
            mask: capacity - 1,
            bits,
            slots,
            pool,
        })
    }
}

// Only Rust has what follows. It is tested, not proved.
mod mending;
pub mod written;
