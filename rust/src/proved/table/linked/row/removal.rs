//! Pairs are removed from a slot.

use crate::memory::prelude::*;
use crate::proved::table::key::IntKey;
use crate::proved::table::linked::chain::{last_from, search, seek_behind};
use crate::proved::table::linked::node::{NODE_LIMIT, NOWHERE, Node};
use crate::proved::table::linked::pool::Pool;
use crate::proved::table::steps::Steps;
use crate::proved::table::table::stored::{Sought, Stored};
use crate::memory::alloc::Allocator;

/// Removes the pair of node `at`, which is behind the first pair of a slot. The link to this node
/// is in node `before`, or in the slot if `before` is no node.
#[inline(always)]
pub(in crate::proved::table) fn unlink<P, A: Allocator>(
    slot: &mut Node<P>,
    pool: &mut Pool<P, A>,
    before: usize,
    at: usize,
) -> P {
    let next = pool.link(at);
    let pair = pool.release(at);
    if before >= NODE_LIMIT {
        slot.set_link(next);
        return pair;
    }
    pool.set_link(before, next);
    pair
}

/// Removes the first pair of a slot that holds others. The last one takes its place.
#[inline(always)]
fn swap_remove_first<P, A: Allocator>(slot: &mut Node<P>, link: usize, pool: &mut Pool<P, A>) -> P {
    let (before, last) = last_from(pool, NOWHERE, link);
    let pair = unlink(slot, pool, before, last);
    slot.replace(pair)
}

/// Removes the pair of a node behind the first pair of a slot. The last pair takes its place. The
/// node before is given too.
#[inline(always)]
fn swap_remove_behind<P, A: Allocator>(
    slot: &mut Node<P>,
    pool: &mut Pool<P, A>,
    before: usize,
    at: usize,
) -> P {
    let (before_last, last) = last_from(pool, before, at);
    let pair = unlink(slot, pool, before_last, last);
    if last == at {
        return pair;
    }
    pool.replace(at, pair)
}

/// Removes the pair at a place of a slot that holds several. The last one takes its place.
#[inline(never)]
pub(in crate::proved::table) fn swap_remove_of_several<P, A: Allocator>(
    slot: &mut Node<P>,
    link: usize,
    pool: &mut Pool<P, A>,
    place: usize,
) -> P {
    if place == 0 {
        return swap_remove_first(slot, link, pool);
    }
    let (before, at) = seek_behind(pool, link, place - 1);
    swap_remove_behind(slot, pool, before, at)
}

/// Removes the key's pair from a slot that holds several. The last one takes its place. The keys
/// are compared from the front, up to the one sought.
#[inline(never)]
pub(in crate::proved::table) fn remove_of_several<K: IntKey, X, A: Allocator>(
    slot: &mut Node<(Stored<K>, X)>,
    link: usize,
    pool: &mut Pool<(Stored<K>, X), A>,
    key: Sought<K>,
    steps: &mut Steps,
) -> Option<X> {
    let Some((_, first)) = slot.get() else {
        unreachable!();
    };
    if first.0.matches(&key, steps) {
        let (_, value) = swap_remove_first(slot, link, pool);
        return Some(value);
    }
    let Ok(spot) = search(pool, link, &key, steps) else {
        return None;
    };
    let (_, value) = swap_remove_behind(slot, pool, spot.before, spot.at);
    Some(value)
}

/// Removes the first pair of a slot with this link. The others move up by one place.
#[inline(always)]
pub(in crate::proved::table) fn pop_front<P, A: Allocator>(
    slot: &mut Node<P>,
    link: usize,
    pool: &mut Pool<P, A>,
) -> P {
    if link >= NODE_LIMIT {
        return slot.take().1;
    }
    pop_front_of_several(slot, link, pool)
}

/// Removes the first pair of a slot that holds others, which move up by one place.
#[inline(never)]
pub(in crate::proved::table) fn pop_front_of_several<P, A: Allocator>(
    slot: &mut Node<P>,
    link: usize,
    pool: &mut Pool<P, A>,
) -> P {
    let second = unlink(slot, pool, NOWHERE, link);
    slot.replace(second)
}
