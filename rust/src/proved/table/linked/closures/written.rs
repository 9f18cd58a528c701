//! `retain` by a closure that may write the values.
use crate::memory::alloc::Allocator;
use crate::proved::table::IntKey;
use crate::proved::table::kept::Kept;
use crate::proved::table::linked::node::{NOWHERE, Node};
use crate::proved::table::linked::pool::Pool;
use crate::proved::table::linked::row::removal::{pop_front, unlink};
use crate::proved::table::table::stored::Stored;

/// Keeps the pairs of a slot for which the closure returns true, in their order, and returns their
/// number. The closure is asked about each pair from the front, and a pair is unlinked before it is
/// dropped.
pub(in crate::proved::table) fn retain_mut<K: IntKey, V, A: Allocator, F: FnMut(K, &mut V) -> bool>(
    slot: &mut Node<(Stored<K>, Kept<V>)>,
    pool: &mut Pool<(Stored<K>, Kept<V>), A>,
    f: &mut F,
) -> usize {
    while let Some((link, _)) = slot.get() {
        if slot.pick(f) {
            return retain_behind(slot, link, pool, f) + 1;
        }
        pop_front(slot, link, pool);
    }
    0
}

/// Keeps the pairs behind the first one of a slot for which the closure returns true, and returns
/// their number.
fn retain_behind<K: IntKey, V, A: Allocator, F: FnMut(K, &mut V) -> bool>(
    slot: &mut Node<(Stored<K>, Kept<V>)>,
    link: usize,
    pool: &mut Pool<(Stored<K>, Kept<V>), A>,
    f: &mut F,
) -> usize {
    let (mut before, mut at, mut kept) = (NOWHERE, link, 0);
    while let Some((next, _)) = pool.get(at) {
        if pool.pick(at, f) {
            before = at;
            kept += 1;
        } else {
            unlink(slot, pool, before, at);
        }
        at = next;
    }
    kept
}
