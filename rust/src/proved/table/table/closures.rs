//! Calls with closures, in the order of the walk: `retain`, one step of `extract_if`, and writes to
//! each value.

use crate::memory::prelude::*;
use crate::proved::table::bits::BITS;
use crate::proved::table::kept::Kept;
use crate::proved::table::key::IntKey;
use crate::proved::table::table::Table;
use crate::proved::table::table::slots::Slots;
use crate::proved::table::table::stored::Stored;
use crate::memory::alloc::Allocator;

/// Keeps the pairs for which the closure returns true, slot after slot, and returns their number.
fn retain_slots<K: IntKey, V, A: Allocator, F: FnMut(K, &V) -> bool>(
    slots: &mut Slots<K, Kept<V>, A>,
    f: &mut F,
) -> usize {
    let mut from = 0;
    while from < slots.len() {
        slots.retain_word(from, f);
        from += BITS;
    }
    slots.pair_count()
}

/// Calls the closure at each pair, slot after slot, with a mutable reference to its value.
fn write_slots<K: IntKey, V, A: Allocator, F: FnMut(K, &mut V)>(
    slots: &mut Slots<K, Kept<V>, A>,
    f: &mut F,
) {
    let mut from = 0;
    let mut left = slots.marks_from(from);
    while let Some(index) = slots.next_in(&mut left, from) {
        slots.write_at(index, f);
        from = index + 1;
    }
}

impl<K: IntKey, V, A: Allocator> Table<K, Kept<V>, A> {
    /// Keeps the pairs for which the closure returns true, in their order, and returns their
    /// number. The closure is called once at each pair, in the order of the walk.
    pub fn retain<F: FnMut(K, &V) -> bool>(&mut self, f: &mut F) -> usize {
        retain_slots(&mut self.slots, f)
    }
}

/// How far a closure was asked: up to place `place` of slot `slot`. Before this place are `passed`
/// pairs, which stayed.
pub struct Progress {
    pub slot: usize,
    pub place: usize,
    pub passed: usize,
}

impl Progress {
    /// The closure was asked about no pair.
    pub fn start() -> Progress {
        Progress {
            slot: 0,
            place: 0,
            passed: 0,
        }
    }
}

/// Asks the closure about each pair that is left, slot after slot, and removes the first one
/// that it picks.
fn extract_slots<K: IntKey, V, A: Allocator, F: FnMut(K, &mut V) -> bool>(
    slots: &mut Slots<K, Kept<V>, A>,
    at: &mut Progress,
    f: &mut F,
) -> Option<(Stored<K>, Kept<V>)> {
    let mut left = slots.marks_from(at.slot);
    while let Some(slot) = slots.next_in(&mut left, at.slot) {
        at.slot = slot;
        let before = at.place;
        let found = slots.extract_at(slot, &mut at.place, f);
        at.passed += at.place - before;
        if let Some(pair) = found {
            return Some(pair);
        }
        at.slot = slot + 1;
        at.place = 0;
    }
    None
}

impl<K: IntKey, V, A: Allocator> Table<K, Kept<V>, A> {
    /// Asks the closure about each pair that is left, in the order of the walk, and removes the
    /// first one that it picks. The closure may write each value. The pairs that stay keep their
    /// order.
    #[inline]
    pub fn extract_next<F: FnMut(K, &mut V) -> bool>(
        &mut self,
        at: &mut Progress,
        f: &mut F,
    ) -> Option<(K, V)> {
        let Some((key, kept)) = extract_slots(&mut self.slots, at, f) else {
            return None;
        };
        Some((*key.key(), kept.into_value()))
    }

    /// Calls the closure at each pair in the order of the walk, with a mutable reference to its
    /// value.
    pub fn write_each<F: FnMut(K, &mut V)>(&mut self, f: &mut F) {
        write_slots(&mut self.slots, f);
    }
}
