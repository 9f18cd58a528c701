//! Growth in one jump, in place: new slots follow the old ones in the same vector, and pairs that
//! share a slot move from the old nodes to new ones. A pair of an old slot goes to that slot or to a
//! new one, so it never meets pairs of an old slot that haven't moved. All memory is allocated
//! before the first pair moves.

use crate::memory::prelude::*;
use crate::proved::table::bits::Bits;
use crate::proved::table::key::IntKey;
use crate::proved::table::linked::chain::pop_front;
use crate::proved::table::linked::node::{NODE_LIMIT, NOWHERE, Node};
use crate::proved::table::linked::pool::Pool;
use crate::proved::table::linked::row::growth::Order;
use crate::proved::table::linked::turn::turn;
use crate::proved::table::steps::Steps;
use crate::proved::table::table::masked_index_of;
use crate::proved::table::table::slots::refill::put_at;
use crate::proved::table::table::slots::{Slots, add_empty};
use crate::proved::table::table::stored::Stored;
use crate::memory::alloc::{AllocError, Allocator};

/// Whether one of the pairs that a link leads through goes to slot `target` among `mask + 1`.
fn any_goes_to<K: IntKey, X, A: Allocator>(
    pool: &Pool<(Stored<K>, X), A>,
    from: usize,
    mask: usize,
    target: usize,
) -> bool {
    let mut link = from;
    while let Some((next, pair)) = pool.get(link) {
        if masked_index_of(&pair.0, mask) == target {
            return true;
        }
        link = next;
    }
    false
}

/// Whether one of the pairs of a slot goes to slot `target` among `mask + 1`.
fn goes_to<K: IntKey, X, A: Allocator>(
    slot: &Node<(Stored<K>, X)>,
    pool: &Pool<(Stored<K>, X), A>,
    mask: usize,
    target: usize,
) -> bool {
    let Some((link, first)) = slot.get() else {
        return false;
    };
    if masked_index_of(&first.0, mask) == target {
        return true;
    }
    any_goes_to(pool, link, mask, target)
}

/// The slot of a key of old slot `index` in a table of `mask + 1` slots, a multiple of the old
/// number. It is the old slot, or one behind the old ones.
#[inline(always)]
fn moved_index_of<K: IntKey>(key: &Stored<K>, mask: usize, index: usize, old_mask: usize) -> usize {
    // no other old slot, even if a key of Rust gives another number at each call
    let target = masked_index_of(key, mask);
    let above = target - (target & old_mask);
    above + index
}

/// Where in its slot a pair goes that was behind the first one of its old slot, if those that were
/// behind it have moved: behind the first one too if that one has the same slot, or else first.
#[inline(always)]
fn further_order(first_target: usize, target: usize) -> Order {
    if first_target == target {
        return Order::Second;
    }
    Order::First
}

/// Moves the pairs of an old slot that holds some to their new slots. The first of them goes to a
/// slot without a pair. Those behind it move from the last one on, each before those that are in
/// its slot, but behind the first one: so each slot has its pairs in order. From when the first one
/// moves on, `from` is the slot behind the old one, and `rest` leads through the pairs of the old
/// one that haven't moved.
#[inline(always)]
fn move_row<K: IntKey, X, A: Allocator>(
    slots: &mut Vec<Node<(Stored<K>, X)>, A>,
    bits: &mut Bits<A>,
    pool: &mut Pool<(Stored<K>, X), A>,
    old_pool: &mut Pool<(Stored<K>, X), A>,
    index: usize,
    from: &mut usize,
    rest: &mut usize,
    old_mask: usize,
    mask: usize,
    placed: &mut Steps,
) {
    let Some((link, first)) = slots[index].get() else {
        unreachable!();
    };
    let first_target = moved_index_of(&first.0, mask, index, old_mask);
    let (_, first) = slots[index].take();
    *from = index + 1;
    put_at(slots, bits, pool, first_target, Order::First, first, placed);
    *rest = turn(old_pool, link);
    while *rest < NODE_LIMIT {
        let next = old_pool.pair(*rest);
        let target = moved_index_of(&next.0, mask, index, old_mask);
        let order = further_order(first_target, target);
        let pair = pop_front(rest, old_pool);
        put_at(slots, bits, pool, target, order, pair, placed);
    }
}

/// Moves the pairs of all old slots, slot after slot, to their new slots. No pair goes to an old
/// slot whose pairs haven't moved yet. The old bits mark the old slots that hold a pair, and stay.
/// The old slots from `from` on haven't moved, and `rest` leads through what is left of the one
/// before. The crate for Rust reads both if a key's `number` panics, and moves the pairs back.
fn move_rows<K: IntKey, X, A: Allocator>(
    slots: &mut Vec<Node<(Stored<K>, X)>, A>,
    bits: &mut Bits<A>,
    pool: &mut Pool<(Stored<K>, X), A>,
    old_bits: &Bits<A>,
    old_pool: &mut Pool<(Stored<K>, X), A>,
    from: &mut usize,
    rest: &mut usize,
    old_mask: usize,
    mask: usize,
    placed: &mut Steps,
) {
    *from = 0;
    let mut left = old_bits.marks_from(*from);
    while let Some(index) = old_bits.next_in(&mut left, *from) {
        move_row(
            slots, bits, pool, old_pool, index, from, rest, old_mask, mask, placed,
        );
    }
}

impl<K: IntKey, X, A: Allocator> Slots<K, X, A> {
    /// How many pairs are behind the first ones of their slots.
    pub(in crate::proved::table) fn further(&self) -> usize {
        self.pool.held()
    }

    /// Puts a pair last in its slot, counts it, and returns its place. If the slot holds a pair
    /// there is room for one more.
    fn put_last(&mut self, index: usize, pair: (Stored<K>, X), placed: &mut Steps) -> usize {
        put_at(
            &mut self.slots,
            &mut self.bits,
            &mut self.pool,
            index,
            Order::Last,
            pair,
            placed,
        )
    }

    /// Room that suffices for the pairs behind the first ones of their slots, if all pairs move to
    /// `capacity` slots and one more comes to slot `target` of them. Pairs go there from slot
    /// `index` alone.
    fn needed(&self, index: usize, capacity: usize, target: usize) -> usize {
        let further = self.further();
        if goes_to(&self.slots[index], &self.pool, capacity - 1, target) {
            return further + 1;
        }
        further
    }
}

/// Bits for `capacity` slots, and a pool with room for `room` pairs.
fn bits_and_room<P, A: Allocator + Copy>(
    alloc: A,
    capacity: usize,
    room: usize,
) -> Result<(Bits<A>, Pool<P, A>), AllocError> {
    let bits = Bits::new(alloc, capacity)?;
    let pool = Pool::with_room(alloc, room)?;
    Ok((bits, pool))
}

impl<K: IntKey, X, A: Allocator + Copy> Slots<K, X, A> {
    /// Makes room for `additional` more pairs that share a slot. If an allocation fails, nothing
    /// changes.
    pub(in crate::proved::table) fn reserve(&mut self, additional: usize) -> Result<(), AllocError> {
        self.pool.reserve(additional)
    }

    /// Adds slots, so that there are `capacity`, and moves all pairs, in the order of the walk, to
    /// their slots among these. The nodes have room for `room` pairs in all. If an allocation
    /// fails, no pair moves.
    fn enlarge(
        &mut self,
        capacity: usize,
        room: usize,
        placed: &mut Steps,
    ) -> Result<(), AllocError> {
        self.slots.reserve_exact(capacity - self.slots.len())?;
        let Ok(made) = bits_and_room(*self.slots.allocator(), capacity, room) else {
            self.slots.shrink_to_fit();
            return Err(AllocError);
        };
        add_empty(&mut self.slots, capacity);
        let (mut bits, mut pool) = made;
        let (mut from, mut rest) = (0, NOWHERE);
        super::mending::moving(self, &mut bits, &mut pool, &mut from, &mut rest, |old, bits, pool, from, rest| {
            let (slots, old_mask) = (&mut old.slots, old.mask);
            move_rows(slots, bits, pool, &old.bits, &mut old.pool, from, rest, old_mask, capacity - 1, placed);
        });
        self.mask = capacity - 1;
        self.bits = bits;
        self.pool = pool;
        Ok(())
    }

    /// Moves all pairs, in the order of the walk, to their slots among `capacity` slots, and makes
    /// room for `additional` more pairs that share a slot. If an allocation fails, no pair moves.
    pub(in crate::proved::table) fn grow(
        &mut self,
        capacity: usize,
        additional: usize,
        placed: &mut Steps,
    ) -> Result<(), AllocError> {
        let Some(room) = self.further().checked_add(additional) else {
            return Err(AllocError);
        };
        self.enlarge(capacity, room, placed)
    }

    /// Puts a new pair behind the pairs of its slot, and moves all pairs, in the order of the walk,
    /// to their slots among `capacity` slots. It returns the place that the new pair has there. If
    /// an allocation fails, the pair is returned, and no pair moves.
    pub(in crate::proved::table) fn grow_and_push(
        &mut self,
        capacity: usize,
        slot: usize,
        target: usize,
        pair: (Stored<K>, X),
        placed: &mut Steps,
    ) -> Result<usize, (Stored<K>, X)> {
        let room = self.needed(slot, capacity, target);
        let Ok(_) = self.enlarge(capacity, room, placed) else {
            return Err(pair);
        };
        Ok(self.put_last(target, pair, placed))
    }
}
