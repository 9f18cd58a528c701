//! Growth puts pairs before others of a slot, between them, or behind them.

use crate::memory::prelude::*;
use crate::proved::table::linked::node::{NOWHERE, Node};
use crate::proved::table::linked::pool::Pool;
use crate::proved::table::linked::row::insertion::push_further;
use crate::memory::alloc::Allocator;

/// Where among the pairs of its slot a pair goes.
#[derive(Clone, Copy)]
pub(in crate::proved::table) enum Order {
    First,
    Second,
    Last,
}

/// Puts a pair before those of a slot, behind the first of them, or last, and returns its place. If
/// the slot holds a pair, the pool has room for another.
#[inline(always)]
pub(in crate::proved::table) fn put_in<P, A: Allocator>(
    slot: &mut Node<P>,
    pool: &mut Pool<P, A>,
    order: Order,
    pair: P,
) -> usize {
    let Some(_) = slot.get() else {
        slot.fill(NOWHERE, pair);
        return 0;
    };
    match order {
        Order::First => put_before_first(slot, pool, pair),
        Order::Second => put_behind_first(slot, pool, pair),
        Order::Last => put_last(slot, pool, pair),
    }
}

/// Puts a pair last in a slot that holds some, and returns its place. There is room for it.
#[inline(always)]
fn put_last<P, A: Allocator>(slot: &mut Node<P>, pool: &mut Pool<P, A>, pair: P) -> usize {
    match push_further(slot, pool, pair) {
        Ok(place) => place,
        Err(_) => unreachable!(),
    }
}

/// Puts a pair behind the first one of a slot that holds some, and returns its place. There is room
/// for it.
#[inline(never)]
fn put_behind_first<P, A: Allocator>(slot: &mut Node<P>, pool: &mut Pool<P, A>, pair: P) -> usize {
    let Some((link, _)) = slot.get() else {
        unreachable!();
    };
    match pool.add(link, pair) {
        Ok(at) => slot.set_link(at),
        Err(_) => unreachable!(),
    }
    1
}

/// Puts a pair before the first one of a slot that holds some, and returns its place. There is room
/// for it.
#[inline(never)]
fn put_before_first<P, A: Allocator>(slot: &mut Node<P>, pool: &mut Pool<P, A>, pair: P) -> usize {
    let Some((link, _)) = slot.get() else {
        unreachable!();
    };
    let first = slot.replace(pair);
    match pool.add(link, first) {
        Ok(at) => slot.set_link(at),
        Err(_) => unreachable!(),
    }
    0
}
