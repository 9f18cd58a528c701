//! Pairs are put into a slot that holds some, or replaced there.

use crate::memory::prelude::*;
use crate::proved::table::key::IntKey;
use crate::proved::table::linked::chain::{last_in, replace_from, search};
use crate::proved::table::linked::node::{NODE_LIMIT, NOWHERE, Node};
use crate::proved::table::linked::pool::Pool;
use crate::proved::table::steps::Steps;
use crate::proved::table::table::stored::{Sought, Stored};
use crate::memory::alloc::Allocator;

/// Puts a pair last, and returns its place. If an allocation fails, it returns the pair. The slot
/// holds a pair.
#[inline(never)]
pub(in crate::proved::table) fn push_further<P, A: Allocator>(
    slot: &mut Node<P>,
    pool: &mut Pool<P, A>,
    pair: P,
) -> Result<usize, P> {
    let Some((link, _)) = slot.get() else {
        unreachable!();
    };
    let (last, count) = last_in(pool, link);
    push_behind(slot, pool, last, pair)?;
    Ok(count + 1)
}

/// Puts the pair of a key and a value last in a slot whose first pair, if there is one, has another
/// key. If the key is present, the last pair takes the place of its pair, and the old value is
/// returned. An absent key is added only if `adds` is true. If it isn't added, or if an allocation
/// fails, the value is returned. The keys are compared from the second on, up to the one sought.
#[inline(always)]
pub(in crate::proved::table) fn put<K: IntKey, X, A: Allocator>(
    slot: &mut Node<(Stored<K>, X)>,
    pool: &mut Pool<(Stored<K>, X), A>,
    key: Sought<K>,
    value: X,
    adds: bool,
    steps: &mut Steps,
) -> Result<Option<X>, X> {
    let Some((link, _)) = slot.get() else {
        return Err(value);
    };
    match search(pool, link, &key, steps) {
        Ok(spot) => {
            let (_, old) = replace_from(pool, spot.at, (Stored::new(key), value));
            Ok(Some(old))
        }
        Err(last) => match add_behind(slot, pool, last, key, value, adds) {
            Ok(()) => Ok(None),
            Err(value) => Err(value),
        },
    }
}

/// Puts the pair of a key and a value last in a slot whose first pair, if there is one, has another
/// key. If the key is present, nothing changes, and the value is dropped. An absent key is added
/// only if `adds` is true. It returns whether the key was added. If it is absent and isn't added, or
/// if an allocation fails, the value is returned. The keys are compared from the second on, up to
/// the one sought.
#[inline(always)]
pub(in crate::proved::table) fn add_checked<K: IntKey, X, A: Allocator>(
    slot: &mut Node<(Stored<K>, X)>,
    pool: &mut Pool<(Stored<K>, X), A>,
    key: Sought<K>,
    value: X,
    adds: bool,
    steps: &mut Steps,
) -> Result<bool, X> {
    let Some((link, _)) = slot.get() else {
        return Err(value);
    };
    match search(pool, link, &key, steps) {
        Ok(_) => Ok(false),
        Err(last) => match add_behind(slot, pool, last, key, value, adds) {
            Ok(()) => Ok(true),
            Err(value) => Err(value),
        },
    }
}

/// Puts the pair of a key and a value behind the last node of a slot, or behind its first pair if it
/// has no node. If `adds` is false, or if an allocation fails, it returns the value.
#[inline(always)]
fn add_behind<K: IntKey, X, A: Allocator>(
    slot: &mut Node<(Stored<K>, X)>,
    pool: &mut Pool<(Stored<K>, X), A>,
    last: usize,
    key: Sought<K>,
    value: X,
    adds: bool,
) -> Result<(), X> {
    if !adds {
        return Err(value);
    }
    match push_behind(slot, pool, last, (Stored::new(key), value)) {
        Ok(()) => Ok(()),
        Err((_, value)) => Err(value),
    }
}

/// Puts a pair behind the last node of a slot, or behind its first pair if it has no node. If an
/// allocation fails, it returns the pair.
#[inline(always)]
fn push_behind<P, A: Allocator>(
    slot: &mut Node<P>,
    pool: &mut Pool<P, A>,
    last: usize,
    pair: P,
) -> Result<(), P> {
    let at = pool.add(NOWHERE, pair)?;
    if last >= NODE_LIMIT {
        slot.set_link(at);
        return Ok(());
    }
    pool.set_link(last, at);
    Ok(())
}

/// Removes the first pair. The last one takes its place, and a new one is put last. It allocates
/// nothing.
#[inline(always)]
pub(in crate::proved::table) fn replace_first<P, A: Allocator>(slot: &mut Node<P>, pool: &mut Pool<P, A>, new: P) -> P {
    let Some((link, _)) = slot.get() else {
        unreachable!();
    };
    if link >= NODE_LIMIT {
        return slot.replace(new);
    }
    replace_first_of_several(slot, link, pool, new)
}

/// Removes the first pair of a slot with this link that holds others. The last one takes its place,
/// and a new one is put last.
#[cold]
#[inline(never)]
fn replace_first_of_several<P, A: Allocator>(
    slot: &mut Node<P>,
    link: usize,
    pool: &mut Pool<P, A>,
    new: P,
) -> P {
    let (last, _) = last_in(pool, link);
    let pair = pool.replace(last, new);
    slot.replace(pair)
}
