//! The row of one slot: its first pair, and those that its link leads through. This file has the
//! calls that only read.

pub(in crate::proved::table) mod growth;
pub(in crate::proved::table) mod insertion;
pub(in crate::proved::table) mod removal;

use crate::memory::prelude::*;
use crate::proved::table::key::IntKey;
use crate::proved::table::linked::chain::{last_in, search, seek};
use crate::proved::table::linked::node::Node;
use crate::proved::table::linked::pool::Pool;
use crate::proved::table::steps::Steps;
use crate::proved::table::table::stored::{Sought, Stored};
use crate::memory::alloc::Allocator;

/// The place of the key's pair. The keys are compared from the front, up to the one sought.
#[inline(always)]
pub(in crate::proved::table) fn find<K: IntKey, X, A: Allocator>(
    slot: &Node<(Stored<K>, X)>,
    pool: &Pool<(Stored<K>, X), A>,
    key: &Sought<K>,
    steps: &mut Steps,
) -> Option<usize> {
    let Some((link, first)) = slot.get() else {
        return None;
    };
    if first.0.matches(key, steps) {
        return Some(0);
    }
    let Ok(spot) = search(pool, link, key, steps) else {
        return None;
    };
    Some(spot.place + 1)
}

/// The key's pair. The keys are compared from the front, up to the one sought.
#[inline(always)]
pub(in crate::proved::table) fn pair_of<'a, K: IntKey, X, A: Allocator>(
    slot: &'a Node<(Stored<K>, X)>,
    pool: &'a Pool<(Stored<K>, X), A>,
    key: &Sought<K>,
    steps: &mut Steps,
) -> Option<&'a (Stored<K>, X)> {
    let Some((link, first)) = slot.get() else {
        return None;
    };
    if first.0.matches(key, steps) {
        return Some(first);
    }
    let Ok(spot) = search(pool, link, key, steps) else {
        return None;
    };
    Some(pool.pair(spot.at))
}

/// Whether the first pair has the key. If there is a first pair, its key is compared.
#[inline(always)]
pub(in crate::proved::table) fn first_is<K: IntKey, X, A: Allocator>(
    slot: &Node<(Stored<K>, X)>,
    _pool: &Pool<(Stored<K>, X), A>,
    key: &Sought<K>,
    steps: &mut Steps,
) -> bool {
    match slot.get() {
        Some((_, first)) => first.0.matches(key, steps),
        None => false,
    }
}

/// The number of pairs.
pub(in crate::proved::table) fn len<P, A: Allocator>(slot: &Node<P>, pool: &Pool<P, A>) -> usize {
    match slot.get() {
        Some((link, _)) => last_in(pool, link).1 + 1,
        None => 0,
    }
}

/// The pair at a place.
#[inline(always)]
pub(in crate::proved::table) fn pair_at<'a, P, A: Allocator>(
    slot: &'a Node<P>,
    pool: &'a Pool<P, A>,
    place: usize,
) -> &'a P {
    let Some((link, first)) = slot.get() else {
        unreachable!();
    };
    if place == 0 {
        return first;
    }
    pool.pair(seek(pool, link, place - 1))
}
