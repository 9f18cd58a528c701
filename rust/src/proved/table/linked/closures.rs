//! Closures are called at the pairs of one slot.

use crate::memory::prelude::*;
use crate::proved::table::kept::Kept;
use crate::proved::table::key::IntKey;
use crate::proved::table::linked::chain::seek_behind;
use crate::proved::table::linked::node::{NODE_LIMIT, NOWHERE, Node};
use crate::proved::table::linked::pool::Pool;
use crate::proved::table::linked::row::removal;
use crate::proved::table::table::closure_calls::keeps_pair;
use crate::proved::table::table::stored::Stored;
use crate::memory::alloc::Allocator;

/// Keeps the pairs behind the first one of a slot for which the closure returns true, in their
/// order.
#[inline(never)]
fn retain_behind<K: IntKey, V, A: Allocator, F: FnMut(K, &V) -> bool>(
    slot: &mut Node<(Stored<K>, Kept<V>)>,
    link: usize,
    pool: &mut Pool<(Stored<K>, Kept<V>), A>,
    f: &mut F,
) {
    let mut before = NOWHERE;
    let mut at = link;
    while let Some((next, pair)) = pool.get(at) {
        if keeps_pair(pair, f) {
            before = at;
        } else {
            removal::unlink(slot, pool, before, at);
        }
        at = next;
    }
}

/// Keeps the pairs of a slot for which the closure returns true, in their order. The closure is
/// called once at each pair, from the front, and a pair is unlinked at once when it returns false.
#[inline(always)]
pub(in crate::proved::table) fn retain<K: IntKey, V, A: Allocator, F: FnMut(K, &V) -> bool>(
    slot: &mut Node<(Stored<K>, Kept<V>)>,
    pool: &mut Pool<(Stored<K>, Kept<V>), A>,
    f: &mut F,
) {
    while let Some((link, first)) = slot.get() {
        if keeps_pair(first, f) {
            if link < NODE_LIMIT {
                retain_behind(slot, link, pool, f);
            }
            return;
        }
        removal::pop_front(slot, link, pool);
    }
}

/// Calls the closure at each pair of a slot in turn, with a mutable reference to its value.
pub(in crate::proved::table) fn write_each<K: IntKey, V, A: Allocator, F: FnMut(K, &mut V)>(
    slot: &mut Node<(Stored<K>, Kept<V>)>,
    pool: &mut Pool<(Stored<K>, Kept<V>), A>,
    f: &mut F,
) {
    let Some((link, _)) = slot.get() else {
        return;
    };
    slot.write(f);
    let mut at = link;
    while let Some((next, _)) = pool.get(at) {
        pool.write(at, f);
        at = next;
    }
}

/// Asks the closure about each pair behind the first one of a slot, from the place on, and removes
/// the first one that it picks. Those behind it move up, and the place moves on to the first of
/// them.
#[inline(never)]
fn extract_behind<K: IntKey, V, A: Allocator, F: FnMut(K, &mut V) -> bool>(
    slot: &mut Node<(Stored<K>, Kept<V>)>,
    link: usize,
    pool: &mut Pool<(Stored<K>, Kept<V>), A>,
    place: &mut usize,
    f: &mut F,
) -> Option<(Stored<K>, Kept<V>)> {
    let (mut before, mut at) = seek_behind(pool, link, *place - 1);
    while let Some((next, _)) = pool.get(at) {
        if pool.pick(at, f) {
            return Some(removal::unlink(slot, pool, before, at));
        }
        before = at;
        at = next;
        *place += 1;
    }
    None
}

/// Asks the closure about each pair of a slot, from the place on, and removes the first one that it
/// picks. Those behind it move up, and the place moves on to the first of them.
#[inline(always)]
pub(in crate::proved::table) fn extract<K: IntKey, V, A: Allocator, F: FnMut(K, &mut V) -> bool>(
    slot: &mut Node<(Stored<K>, Kept<V>)>,
    pool: &mut Pool<(Stored<K>, Kept<V>), A>,
    place: &mut usize,
    f: &mut F,
) -> Option<(Stored<K>, Kept<V>)> {
    let Some((link, _)) = slot.get() else {
        return None;
    };
    if *place > 0 {
        return extract_behind(slot, link, pool, place, f);
    }
    if slot.pick(f) {
        return Some(removal::pop_front(slot, link, pool));
    }
    *place = 1;
    if link >= NODE_LIMIT {
        return None;
    }
    extract_behind(slot, link, pool, place, f)
}

// Only Rust has what follows. It is tested, not proved.
pub mod written;
