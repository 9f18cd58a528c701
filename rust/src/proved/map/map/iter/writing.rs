//! Writes to the values one after another: by an iterator over them, by a `for` loop over a `&mut`
//! to the map, and by a closure.

use crate::memory::prelude::*;
use crate::proved::map::map::IntMap;
use crate::proved::map::map::iter::IterMut;
use crate::proved::table::IntKey;
use crate::memory::alloc::{Allocator, Global};

/// The values of a map by mutable reference, made by
/// [`IntMap::values_mut`](crate::proved::map::IntMap::values_mut). Contracts see it as the list of the values
/// that are left, with the name of the loan of all values.
pub struct ValuesMut<'a, K, V, A: Allocator + Copy = Global> {
    pub(in crate::proved::map) pairs: IterMut<'a, K, V, A>,
}

impl<'a, K: IntKey, V, A: Allocator + Copy> Iterator for ValuesMut<'a, K, V, A> {
    type Item = &'a mut V;

    #[inline]
    fn next(&mut self) -> Option<&'a mut V> {
        let (_, value) = self.pairs.next()?;
        Some(value)
    }

    fn size_hint(&self) -> (usize, Option<usize>) {
        self.pairs.size_hint()
    }
}

impl<K: IntKey, V, A: Allocator + Copy> IntMap<K, V, A> {
    /// An iterator over the values in iteration order, by mutable reference. It allocates nothing.
    /// Neither this call nor a step of the iterator fails. It leaves the map as
    /// [`iter_mut`](IntMap::iter_mut) does.
    pub fn values_mut(&mut self) -> ValuesMut<'_, K, V, A> {
        ValuesMut {
            pairs: self.iter_mut(),
        }
    }
}

impl<K: IntKey, V, A: Allocator + Copy> IntMap<K, V, A> {
    /// Calls the closure once for each pair, in iteration order, with the key and a mutable
    /// reference to the value. The next call sees what this one changed of the closure's state.
    ///
    /// The closure must be callable at these pairs in this order, each time in the state that the
    /// call before left. Nothing is required of other keys, values and calls.
    ///
    /// The keys, their order and their number stay, and so do the capacity, the load factor and
    /// both counts. No key is compared. It never fails and allocates nothing. Apart from the calls
    /// of the closure, its time grows with the number of pairs and, by one bit for each, the number
    /// of slots.
    pub fn for_each_mut<F: FnMut(K, &mut V)>(&mut self, f: F) {
        let mut f = f;
        self.table.write_each(&mut f);
    }
}
