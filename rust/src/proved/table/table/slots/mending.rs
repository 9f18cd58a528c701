//! Slots that a panic has left in the middle of a call.
use super::Slots;
use crate::memory::alloc::Allocator;
use crate::proved::table::IntKey;
use crate::proved::table::bits::Bits;
use crate::proved::table::linked::chain;
use crate::proved::table::linked::node::{NODE_LIMIT, NOWHERE};
use crate::proved::table::linked::pool::Pool;
use crate::proved::table::linked::row::growth::{Order, put_in};
use crate::proved::table::linked::row::removal;
use crate::proved::table::table::stored::Stored;
use core::mem::forget;

/// Holds the slots of a map that grows. Those before slot `from` of the old ones, and those behind the
/// old ones, have links to the new nodes. In the old nodes `rest` leads through the pairs that are left
/// of the slot before `from`, the last one first.
struct Moving<'a, K: IntKey, X, A: Allocator> {
    old: &'a mut Slots<K, X, A>,
    bits: &'a mut Bits<A>,
    pool: &'a mut Pool<(Stored<K>, X), A>,
    from: &'a mut usize,
    rest: &'a mut usize,
}

impl<K: IntKey, X, A: Allocator> Moving<'_, K, X, A> {
    /// Moves the pairs behind the first one of an old slot back to the old nodes.
    fn move_further_back(&mut self, index: usize) {
        let Some((mut link, _)) = self.old.slots[index].get() else { return };
        self.old.slots[index].set_link(NOWHERE);
        while link < NODE_LIMIT {
            let pair = chain::pop_front(&mut link, self.pool);
            drop(self.old.push(index, pair));
        }
    }

    /// Moves the pairs that are left of the slot before `from` back, behind the first one of it.
    fn move_rest_back(&mut self) {
        while *self.rest < NODE_LIMIT {
            let pair = chain::pop_front(self.rest, &mut self.old.pool);
            let slot = &mut self.old.slots[*self.from - 1];
            put_in(slot, &mut self.old.pool, Order::Second, pair);
        }
    }

    /// Moves the pairs of a new slot back to their old slot, behind those that are there.
    fn move_row_back(&mut self, index: usize) {
        while let Some((link, _)) = self.old.slots[index].get() {
            let pair = removal::pop_front(&mut self.old.slots[index], link, self.pool);
            drop(self.old.push(index & self.old.mask, pair));
        }
    }
}

impl<K: IntKey, X, A: Allocator> Drop for Moving<'_, K, X, A> {
    /// Moves the pairs back to their old slots. It calls no `number`: the old slot of a pair is its
    /// new one modulo the number of old slots, whatever the number of its key was. The nodes that the
    /// pairs had are free, so it needs no memory.
    #[cold]
    #[inline(never)]
    fn drop(&mut self) {
        let count = self.old.mask + 1;
        for index in 0..*self.from {
            self.move_further_back(index);
        }
        self.move_rest_back();
        for index in count..self.old.slots.len() {
            self.move_row_back(index);
        }
        self.old.slots.truncate(count);
    }
}

/// Moves the pairs of old slots to new ones. If a key's `number` panics on the way, all are in the old
/// slots afterwards.
#[inline(always)]
pub(super) fn moving<K: IntKey, X, A: Allocator>(
    old: &mut Slots<K, X, A>,
    bits: &mut Bits<A>,
    pool: &mut Pool<(Stored<K>, X), A>,
    from: &mut usize,
    rest: &mut usize,
    move_all: impl FnOnce(
        &mut Slots<K, X, A>,
        &mut Bits<A>,
        &mut Pool<(Stored<K>, X), A>,
        &mut usize,
        &mut usize,
    ),
) {
    let moving = Moving { old, bits, pool, from, rest };
    move_all(moving.old, moving.bits, moving.pool, moving.from, moving.rest);
    forget(moving);
}

impl<K: IntKey, X, A: Allocator> Slots<K, X, A> {
    /// Makes the slots whole again after a panic of a closure, of a drop or of a key's `number`, and
    /// returns how many pairs they have. It calls no `number`. All that such a panic leaves wrong are
    /// the bits: links lead through the pairs of each slot at any time.
    pub(in crate::proved::table) fn mend(&mut self) -> usize {
        let mut filled = 0;
        for (index, slot) in self.slots.iter().enumerate() {
            if slot.is_empty() {
                self.bits.clear(index);
            } else {
                self.bits.set(index);
                filled += 1;
            }
        }
        filled + self.pool.held()
    }
}
