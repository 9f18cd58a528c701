//! Removal of the pairs that a closure picks, one by one.

use crate::memory::prelude::*;
use crate::proved::map::map::IntMap;
use crate::proved::table::IntKey;
use crate::proved::table::table::Progress;
use crate::memory::alloc::{Allocator, Global};

impl<K: IntKey, V, A: Allocator + Copy> IntMap<K, V, A> {
    /// Removes the first pair that the closure picks, of those that are left, and moves on to the
    /// pair behind that one.
    pub(super) fn extract_next<F: FnMut(K, &mut V) -> bool>(
        &mut self,
        at: &mut Progress,
        f: &mut F,
    ) -> Option<(K, V)> {
        let Some(pair) = self.table.extract_next(at, f) else {
            return None;
        };
        self.len -= 1;
        Some(pair)
    }
}

/// Removes the pairs of a map that a closure picks, one at each step, made by
/// [`IntMap::extract_if`](crate::proved::map::IntMap::extract_if). At every moment the map has the pairs that
/// were kept and the pairs that the closure wasn't asked about yet, and its length counts these. If
/// the iterator is dropped early, they stay, in their order. They also stay if it is forgotten, but
/// no clause says that.
#[must_use]
pub struct ExtractIf<'a, K, V, F, A: Allocator + Copy = Global> {
    map: &'a mut IntMap<K, V, A>,
    at: Progress,
    test: F,
}

impl<'a, K: IntKey, V, F: FnMut(K, &mut V) -> bool, A: Allocator + Copy> Iterator
    for ExtractIf<'a, K, V, F, A> {
    type Item = (K, V);

    fn next(&mut self) -> Option<(K, V)> {
        self.map.extract_next(&mut self.at, &mut self.test)
    }

    /// The lower bound is 0. The upper bound is the number of pairs that the closure wasn't asked
    /// about yet.
    fn size_hint(&self) -> (usize, Option<usize>) {
        (0, Some(self.map.len() - self.at.passed))
    }
}

impl<K: IntKey, V, A: Allocator + Copy> IntMap<K, V, A> {
    /// An iterator that removes the pairs for which the closure returns true, one at each step, and
    /// returns them, in iteration order. The closure is called with the key and a mutable reference
    /// to the value, and may write the value. Each step asks the closure about the pairs that are
    /// left, up to the first one that it picks. It is asked about no pair twice.
    ///
    /// The closure must be callable at these pairs in this order, each time in the state that the
    /// call before left. Nothing is required of other keys, values and calls.
    ///
    /// The pairs that stay keep their order: those that the closure didn't pick have the values
    /// that it left, and those that weren't reached stay as they are. The capacity, the load factor
    /// and both counts stay, and the map keeps its memory. It allocates nothing and never fails.
    ///
    /// Each step goes again past the pairs of the slot that were asked about before and stay. Where
    /// thousands of keys share a slot that is slow; `retain` goes past each pair once.
    pub fn extract_if<F: FnMut(K, &mut V) -> bool>(&mut self, test: F) -> ExtractIf<'_, K, V, F, A> {
        self.known();
        ExtractIf {
            map: self,
            at: Progress::start(),
            test,
        }
    }
}
