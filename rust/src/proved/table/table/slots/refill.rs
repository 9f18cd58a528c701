//! How a pair of a growth gets into its slot. One function puts each of them, those that move and
//! the new one.

use crate::memory::prelude::*;
use crate::proved::table::bits::Bits;
use crate::proved::table::linked::node::Node;
use crate::proved::table::linked::pool::Pool;
use crate::proved::table::linked::row::growth::{Order, put_in};
use crate::proved::table::steps::Steps;
use crate::memory::alloc::Allocator;

/// Puts a pair into its slot, where `order` says, marks the slot, counts the pair, and returns its
/// place. If the slot holds a pair, there must be room for another.
#[inline(always)]
pub(super) fn put_at<P, A: Allocator>(
    slots: &mut Vec<Node<P>, A>,
    bits: &mut Bits<A>,
    pool: &mut Pool<P, A>,
    index: usize,
    order: Order,
    pair: P,
    placed: &mut Steps,
) -> usize {
    let place = put_in(&mut slots[index], pool, order, pair);
    bits.set(index);
    placed.tick();
    place
}
