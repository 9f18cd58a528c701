//! The pairs of slots by value, slot after slot.

use crate::memory::prelude::*;
use crate::proved::table::bits::{Bits, MarksLeft};
use crate::proved::table::key::IntKey;
use crate::proved::table::linked::chain::pop_front;
use crate::proved::table::linked::node::{NODE_LIMIT, NOWHERE, Node};
use crate::proved::table::linked::pool::Pool;
use crate::proved::table::table::slots::Slots;
use crate::proved::table::table::stored::Stored;
use crate::memory::alloc::Allocator;

/// The pairs left: those that `link` leads through, then those of the slots from `from` on.
/// The bits still mark slots that were passed, and `left` has the marks of one word behind them.
pub(in crate::proved::table) struct IntoRows<K, X, A: Allocator> {
    link: usize,
    from: usize,
    left: MarksLeft,
    bits: Bits<A>,
    slots: Vec<Node<(Stored<K>, X)>, A>,
    pool: Pool<(Stored<K>, X), A>,
}

impl<K: IntKey, X, A: Allocator> Slots<K, X, A> {
    /// The pairs by value, slot after slot.
    pub(in crate::proved::table) fn into_rows(self) -> IntoRows<K, X, A> {
        let Slots {
            mask: _,
            bits,
            slots,
            pool,
        } = self;
        let left = bits.marks_from(0);
        IntoRows {
            link: NOWHERE,
            from: 0,
            left,
            bits,
            slots,
            pool,
        }
    }
}

impl<K: IntKey, X, A: Allocator> IntoRows<K, X, A> {
    /// The next stored pair.
    #[inline(always)]
    pub(in crate::proved::table) fn next(&mut self) -> Option<(Stored<K>, X)> {
        if self.link < NODE_LIMIT {
            return Some(pop_front(&mut self.link, &mut self.pool));
        }
        let index = self.bits.next_in(&mut self.left, self.from)?;
        let (link, pair) = self.slots[index].take();
        self.link = link;
        self.from = index + 1;
        Some(pair)
    }
}
