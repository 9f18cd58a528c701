//! Slots are cloned: the same keys in the same slots, with clones of their values.

use crate::memory::prelude::*;
use crate::proved::table::bits::{BITS, Bits};
use crate::proved::table::key::IntKey;
use crate::proved::table::linked::node::{NODE_LIMIT, NOWHERE, Node};
use crate::proved::table::linked::pool::Pool;
use crate::proved::table::table::slots::{Slots, add_empty};
use crate::proved::table::table::stored::Stored;
use crate::memory::alloc::{AllocError, Allocator};

/// The same key with a clone of the value. It fails if the clone does. No key is compared.
#[inline(always)]
fn clone_pair<K: IntKey, X: Clone>(pair: &(Stored<K>, X)) -> Result<(Stored<K>, X), AllocError> {
    let value = pair.1.clone()?;
    Ok((pair.0.copied(), value))
}

/// The link of the copy of a pair whose own link is `link`, if `held` new nodes are before it. It
/// leads to the new node that comes next, or nowhere if `link` leads nowhere.
#[inline(always)]
fn link_behind(link: usize, held: usize) -> usize {
    if link < NODE_LIMIT { held + 1 } else { NOWHERE }
}

/// Puts clones of the pairs that a link leads through, of which there is at least one, into new
/// nodes of `made`, in their order, and returns the link to them.
#[inline(never)]
fn clone_chain<K: IntKey, X: Clone, A: Allocator>(
    pool: &Pool<(Stored<K>, X), A>,
    from: usize,
    made: &mut Pool<(Stored<K>, X), A>,
) -> Result<usize, AllocError> {
    let first = made.held();
    let mut link = from;
    while let Some((next, pair)) = pool.get(link) {
        let copy = clone_pair(pair)?;
        match made.add_new(link_behind(next, made.held()), copy) {
            Ok(_) => {}
            Err(_) => return Err(AllocError),
        }
        link = next;
    }
    Ok(first)
}

/// A slot with clones of the pairs of another, which holds some. Those behind the first one are put
/// into new nodes of `made`.
#[inline(always)]
fn clone_slot<K: IntKey, X: Clone, A: Allocator>(
    slot: &Node<(Stored<K>, X)>,
    pool: &Pool<(Stored<K>, X), A>,
    made: &mut Pool<(Stored<K>, X), A>,
) -> Result<Node<(Stored<K>, X)>, AllocError> {
    let Some((link, pair)) = slot.get() else {
        unreachable!();
    };
    let copy = clone_pair(pair)?;
    if link >= NODE_LIMIT {
        return Ok(Node::held(NOWHERE, copy));
    }
    let link = clone_chain(pool, link, made)?;
    Ok(Node::held(link, copy))
}

/// Adds slots without a pair, 64 of them unless that is too many, if none has this index yet. There
/// may be `count` slots, for which there is room.
#[inline(always)]
fn add_up_to<P, A: Allocator>(slots: &mut Vec<Node<P>, A>, index: usize, count: usize) {
    if index >= slots.len() {
        add_empty(slots, count.min(index + BITS));
    }
}

/// Adds clones of all slots, for which there is room. The bits mark those that hold a pair.
fn clone_rows<K: IntKey, X: Clone, A: Allocator>(
    bits: &Bits<A>,
    slots: &[Node<(Stored<K>, X)>],
    pool: &Pool<(Stored<K>, X), A>,
    made: &mut Vec<Node<(Stored<K>, X)>, A>,
    nodes: &mut Pool<(Stored<K>, X), A>,
) -> Result<(), AllocError> {
    let mut from = 0;
    let mut left = bits.marks_from(0);
    while let Some(index) = bits.next_in(&mut left, from) {
        add_up_to(made, index, slots.len());
        made[index] = clone_slot(&slots[index], pool, nodes)?;
        from = index + 1;
    }
    add_empty(made, slots.len());
    Ok(())
}

impl<K: IntKey, X: Clone, A: Allocator + Copy> Slots<K, X, A> {
    /// The same keys in the same slots, with clones of their values. The slots, their bits and the
    /// nodes are allocated before the first value is cloned. The values are cloned slot after slot,
    /// and those of a slot from the front.
    pub(in crate::proved::table) fn clone(&self) -> Result<Slots<K, X, A>, AllocError> {
        let alloc = *self.slots.allocator();
        let mut slots = Vec::with_capacity(alloc, self.slots.len())?;
        let bits = self.bits.clone()?;
        let mut pool = Pool::with_room(alloc, self.pool.held())?;
        clone_rows(&self.bits, &self.slots, &self.pool, &mut slots, &mut pool)?;
        Ok(Slots {
            mask: self.mask,
            bits,
            slots,
            pool,
        })
    }
}
