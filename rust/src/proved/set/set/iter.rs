//! The iterators of a set. Each goes through the slots in turn, and through each slot from front to
//! back.

mod combined;
mod drain;
mod traits;

use crate::memory::prelude::*;
use crate::proved::set::set::IntSet;
pub use combined::{Difference, Intersection, SymmetricDifference, Union};
pub use drain::Drain;
use crate::proved::map::IntKey;
pub use crate::proved::map::iter::{IntoKeys, Keys};
use crate::memory::alloc::Allocator;

impl<K: IntKey, A: Allocator + Copy> IntSet<K, A> {
    /// An iterator over the members by reference, in iteration order. Neither this call nor a step
    /// of the iterator fails.
    pub fn iter(&self) -> Keys<'_, K, (), A> {
        self.map.keys()
    }
}

impl<'a, K: IntKey, A: Allocator + Copy> IntoIterator for &'a IntSet<K, A> {
    type Item = &'a K;

    type IntoIter = Keys<'a, K, (), A>;

    /// The members by reference, as by [`iter`](IntSet::iter).
    fn into_iter(self) -> Keys<'a, K, (), A> {
        self.iter()
    }
}

impl<K: IntKey, A: Allocator + Copy> IntoIterator for IntSet<K, A> {
    type Item = K;

    type IntoIter = IntoKeys<K, (), A>;

    /// An iterator over the members by value, in iteration order. Neither this call nor a step of
    /// the iterator fails. The time of a step doesn't depend on how many members share a slot.
    fn into_iter(self) -> IntoKeys<K, (), A> {
        self.map.into_keys()
    }
}
