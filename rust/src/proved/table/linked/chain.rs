//! Chains of nodes: the pairs of a slot behind its first one, in the order of the links.

use crate::memory::prelude::*;
use crate::proved::table::key::IntKey;
use crate::proved::table::linked::node::{NODE_LIMIT, NOWHERE};
use crate::proved::table::linked::pool::Pool;
use crate::proved::table::steps::Steps;
use crate::proved::table::table::stored::{Sought, Stored};
use crate::memory::alloc::Allocator;

/// Where a pair is in a chain: its node, its place, and the node before. At the front there is no
/// node before.
#[derive(Clone, Copy)]
pub(in crate::proved::table) struct Spot {
    pub before: usize,
    pub at: usize,
    pub place: usize,
}

/// Where the key's pair is among those that a link leads through, or the last node if none of them
/// has the key (no node if there is no pair). The keys are compared in turn, up to the one sought.
#[inline(always)]
pub(in crate::proved::table) fn search<K: IntKey, X, A: Allocator>(
    pool: &Pool<(Stored<K>, X), A>,
    from: usize,
    key: &Sought<K>,
    steps: &mut Steps,
) -> Result<Spot, usize> {
    let mut before = NOWHERE;
    let mut at = from;
    let mut place = 0;
    while let Some((next, pair)) = pool.get(at) {
        if pair.0.matches(key, steps) {
            return Ok(Spot { before, at, place });
        }
        before = at;
        at = next;
        place += 1;
    }
    Err(before)
}

/// The last node of a chain, behind the node before it. Node `at` of this chain is given, and the
/// node before that one.
#[inline(always)]
pub(in crate::proved::table) fn last_from<P, A: Allocator>(
    pool: &Pool<P, A>,
    before: usize,
    at: usize,
) -> (usize, usize) {
    let mut before = before;
    let mut last = at;
    let mut next = pool.link(last);
    while next < NODE_LIMIT {
        before = last;
        last = next;
        next = pool.link(last);
    }
    (before, last)
}

/// The last node of a chain (no node if there is no pair), and the number of pairs.
#[inline(always)]
pub(in crate::proved::table) fn last_in<P, A: Allocator>(pool: &Pool<P, A>, from: usize) -> (usize, usize) {
    let mut last = NOWHERE;
    let mut next = from;
    let mut count = 0;
    while next < NODE_LIMIT {
        last = next;
        next = pool.link(last);
        count += 1;
    }
    (last, count)
}

/// The node at a place of a chain.
#[inline(always)]
pub(in crate::proved::table) fn seek<P, A: Allocator>(pool: &Pool<P, A>, from: usize, place: usize) -> usize {
    let mut link = from;
    for passed in 0..place {
        link = pool.link(link);
    }
    link
}

/// The node before a place of a chain, and the node at this place. The first of them is none at the
/// front of the chain, and the second is none behind its last pair.
#[inline(always)]
pub(in crate::proved::table) fn seek_behind<P, A: Allocator>(
    pool: &Pool<P, A>,
    from: usize,
    place: usize,
) -> (usize, usize) {
    if place == 0 {
        return (NOWHERE, from);
    }
    let before = seek(pool, from, place - 1);
    (before, pool.link(before))
}

/// Removes the first of the pairs that a link leads through.
#[inline(always)]
pub(in crate::proved::table) fn pop_front<P, A: Allocator>(link: &mut usize, pool: &mut Pool<P, A>) -> P {
    let at = *link;
    *link = pool.link(at);
    pool.release(at)
}

/// Removes the pair of a node. The last pair of the chain takes its place, and a new one is put
/// last. It returns the pair that was removed.
#[inline(always)]
pub(in crate::proved::table) fn replace_from<P, A: Allocator>(pool: &mut Pool<P, A>, at: usize, new: P) -> P {
    let (last, _) = last_in(pool, at);
    let pair = pool.replace(last, new);
    if last == at {
        return pair;
    }
    pool.replace(at, pair)
}
