//! The iterators that own a map: they remove its pairs by value, from the front of the walk.

use crate::memory::prelude::*;
use crate::proved::map::map::IntMap;
use crate::proved::table::IntKey;
use crate::proved::table::kept::Kept;
use crate::proved::table::table::owned::IntoPairs;
use crate::memory::alloc::{Allocator, Global};

/// The pairs of a map by value, made by [`IntMap::into_iter`](crate::proved::map::IntMap::into_iter). Contracts
/// see it as the list of the pairs that are left.
pub struct IntoIter<K, V, A: Allocator + Copy = Global> {
    pairs: IntoPairs<K, Kept<V>, A>,
}

impl<K: IntKey, V, A: Allocator + Copy> Iterator for IntoIter<K, V, A> {
    type Item = (K, V);

    #[inline]
    fn next(&mut self) -> Option<(K, V)> {
        let (key, kept) = self.pairs.next()?;
        Some((key, kept.into_value()))
    }
}

/// The keys of a map by value, made by [`IntMap::into_keys`](crate::proved::map::IntMap::into_keys). Contracts
/// see it as the list of the keys that are left.
pub struct IntoKeys<K, V, A: Allocator + Copy = Global> {
    pairs: IntoIter<K, V, A>,
}

impl<K: IntKey, V, A: Allocator + Copy> Iterator for IntoKeys<K, V, A> {
    type Item = K;

    #[inline]
    fn next(&mut self) -> Option<K> {
        let (key, _) = self.pairs.next()?;
        Some(key)
    }
}

/// The values of a map by value, made by [`IntMap::into_values`](crate::proved::map::IntMap::into_values).
/// Contracts see it as the list of the values that are left.
pub struct IntoValues<K, V, A: Allocator + Copy = Global> {
    pairs: IntoIter<K, V, A>,
}

impl<K: IntKey, V, A: Allocator + Copy> Iterator for IntoValues<K, V, A> {
    type Item = V;

    #[inline]
    fn next(&mut self) -> Option<V> {
        let (_, value) = self.pairs.next()?;
        Some(value)
    }
}

impl<K: IntKey, V, A: Allocator + Copy> IntoIterator for IntMap<K, V, A> {
    type Item = (K, V);

    type IntoIter = IntoIter<K, V, A>;

    /// An iterator over the pairs by value, in iteration order. Neither this call nor a step of the
    /// iterator fails. The time of a step doesn't depend on how many pairs share a slot. Dropping
    /// the iterator drops the pairs that are left.
    fn into_iter(self) -> IntoIter<K, V, A> {
        IntoIter {
            pairs: self.table.into_pairs(),
        }
    }
}

impl<K: IntKey, V, A: Allocator + Copy> IntMap<K, V, A> {
    /// An iterator over the keys by value, in iteration order, which consumes the map. Each step
    /// drops the value of the key that it returns. Dropping the iterator drops the values that are
    /// left. Neither this call nor a step of the iterator fails.
    pub fn into_keys(self) -> IntoKeys<K, V, A> {
        self.known();
        IntoKeys {
            pairs: self.into_iter(),
        }
    }

    /// An iterator over the values by value, in iteration order, which consumes the map. Dropping
    /// the iterator drops the values that are left. Neither this call nor a step of the iterator
    /// fails.
    pub fn into_values(self) -> IntoValues<K, V, A> {
        self.known();
        IntoValues {
            pairs: self.into_iter(),
        }
    }
}
