//! Removal of the pairs of a table, one by one, from the front of its walk.

use crate::memory::prelude::*;
use crate::proved::table::bits::MarksLeft;
use crate::proved::table::key::IntKey;
use crate::proved::table::table::Table;
use crate::proved::table::table::slots::Slots;
use crate::memory::alloc::Allocator;

/// How far pairs were taken from the front of the walk. Slot `at` may still hold some of its pairs,
/// and `left` has the marks of the slots behind it.
pub struct Front {
    at: usize,
    left: MarksLeft,
}

/// Moves the front to the first slot that holds a pair, and returns whether there is one.
#[inline(always)]
fn reach<K: IntKey, X, A: Allocator>(slots: &Slots<K, X, A>, front: &mut Front) -> bool {
    if slots.holds_pair(front.at) {
        return true;
    }
    let Some(index) = slots.next_in(&mut front.left, front.at + 1) else {
        return false;
    };
    front.at = index;
    true
}

impl<K: IntKey, X, A: Allocator> Table<K, X, A> {
    /// The front of the walk, from which no pair was taken.
    pub fn front(&self) -> Front {
        Front {
            at: 0,
            left: self.slots.marks_from(1),
        }
    }

    /// Removes the first pair of the walk and returns it. All pairs before the front were taken.
    #[inline(always)]
    pub fn take_next(&mut self, front: &mut Front) -> Option<(K, X)> {
        if !reach(&self.slots, front) {
            return None;
        }
        let (key, value) = self.slots.take_front(front.at);
        Some((*key.key(), value))
    }

    /// Removes the first pair of the walk and returns it. No slot before `from` may hold a pair.
    /// `from` moves on to the slot that held the removed pair. If no pair is left, `from` stays.
    #[inline(always)]
    pub fn take_front(&mut self, from: &mut usize) -> Option<(K, X)> {
        let index = self.slots.next_filled(*from)?;
        *from = index;
        let (key, value) = self.slots.take_front(index);
        Some((*key.key(), value))
    }
}
