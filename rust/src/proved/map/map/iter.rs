//! The iterators of a map. Each goes through the slots in turn, and through each slot from front to
//! back. The one of `disjoint` goes through keys that a caller names.

mod drain;
mod extract;
mod owned;
mod traits;
mod writing;
mod written;

use crate::memory::prelude::*;
use crate::proved::map::map::IntMap;
pub use drain::Drain;
pub use extract::ExtractIf;
use crate::proved::table::IntKey;
use crate::proved::table::kept::Kept;
use crate::proved::table::table::Pairs;
pub use owned::{IntoIter, IntoKeys, IntoValues};
use crate::memory::alloc::{Allocator, Global};
pub use writing::ValuesMut;
pub use written::IterMut;

/// The pairs of a map by reference, made by [`IntMap::iter`](crate::proved::map::IntMap::iter). Contracts see
/// it as the list of the pairs that are left.
pub struct Iter<'a, K, V, A: Allocator + Copy = Global> {
    pub(in crate::proved::map) pairs: Pairs<'a, K, Kept<V>, A>,
}

impl<'a, K: IntKey, V, A: Allocator + Copy> Iterator for Iter<'a, K, V, A> {
    type Item = (&'a K, &'a V);

    #[inline]
    fn next(&mut self) -> Option<(&'a K, &'a V)> {
        let (key, kept) = self.pairs.next()?;
        Some((key, kept.get()))
    }
}

/// The keys of a map by reference, made by [`IntMap::keys`](crate::proved::map::IntMap::keys). Contracts see it
/// as the list of the keys that are left.
pub struct Keys<'a, K, V, A: Allocator + Copy = Global> {
    pub(in crate::proved::map) pairs: Iter<'a, K, V, A>,
}

impl<'a, K: IntKey, V, A: Allocator + Copy> Iterator for Keys<'a, K, V, A> {
    type Item = &'a K;

    #[inline]
    fn next(&mut self) -> Option<&'a K> {
        let (key, _) = self.pairs.next()?;
        Some(key)
    }

    fn size_hint(&self) -> (usize, Option<usize>) {
        self.pairs.size_hint()
    }
}

/// The values of a map by reference, made by [`IntMap::values`](crate::proved::map::IntMap::values). Contracts
/// see it as the list of the values that are left.
pub struct Values<'a, K, V, A: Allocator + Copy = Global> {
    pub(in crate::proved::map) pairs: Iter<'a, K, V, A>,
}

impl<'a, K: IntKey, V, A: Allocator + Copy> Iterator for Values<'a, K, V, A> {
    type Item = &'a V;

    #[inline]
    fn next(&mut self) -> Option<&'a V> {
        let (_, value) = self.pairs.next()?;
        Some(value)
    }

    fn size_hint(&self) -> (usize, Option<usize>) {
        self.pairs.size_hint()
    }
}

impl<K: IntKey, V, A: Allocator + Copy> IntMap<K, V, A> {
    /// An iterator over the pairs by reference, in iteration order. Neither this call nor a step of
    /// the iterator fails.
    pub fn iter(&self) -> Iter<'_, K, V, A> {
        Iter {
            pairs: self.table.pairs(),
        }
    }

    /// An iterator over the keys by reference, in iteration order. Neither this call nor a step of
    /// the iterator fails.
    pub fn keys(&self) -> Keys<'_, K, V, A> {
        Keys { pairs: self.iter() }
    }

    /// An iterator over the values by reference, in iteration order. Neither this call nor a step
    /// of the iterator fails.
    pub fn values(&self) -> Values<'_, K, V, A> {
        Values { pairs: self.iter() }
    }
}

impl<'a, K: IntKey, V, A: Allocator + Copy> IntoIterator for &'a IntMap<K, V, A> {
    type Item = (&'a K, &'a V);

    type IntoIter = Iter<'a, K, V, A>;

    /// The pairs by reference, as by [`iter`](IntMap::iter).
    fn into_iter(self) -> Iter<'a, K, V, A> {
        self.iter()
    }
}
