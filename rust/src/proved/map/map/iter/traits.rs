//! Clones and text of the iterators by reference, and `FusedIterator` for all iterators over pairs,
//! keys or values but `ExtractIf`: once they are at the end, they stay there.

use crate::memory::prelude::*;
use crate::proved::map::map::iter::{
    Drain, IntoIter, IntoKeys, IntoValues, Iter, IterMut, Keys, Values, ValuesMut,
};
use crate::proved::table::IntKey;
use crate::memory::alloc::{AllocError, Allocator};
use core::fmt;
use core::iter::FusedIterator;

impl<'a, K: IntKey, V, A: Allocator + Copy> Clone for Iter<'a, K, V, A> {
    /// A second iterator over the pairs that are left. It allocates nothing and never fails.
    fn clone(&self) -> Result<Iter<'a, K, V, A>, AllocError> {
        Ok(Iter {
            pairs: self.pairs.clone()?,
        })
    }
}

impl<'a, K: IntKey, V, A: Allocator + Copy> Clone for Keys<'a, K, V, A> {
    /// A second iterator over the keys that are left. It allocates nothing and never fails.
    fn clone(&self) -> Result<Keys<'a, K, V, A>, AllocError> {
        Ok(Keys {
            pairs: self.pairs.clone()?,
        })
    }
}

impl<'a, K: IntKey, V, A: Allocator + Copy> Clone for Values<'a, K, V, A> {
    /// A second iterator over the values that are left. It allocates nothing and never fails.
    fn clone(&self) -> Result<Values<'a, K, V, A>, AllocError> {
        Ok(Values {
            pairs: self.pairs.clone()?,
        })
    }
}

impl<'a, K: IntKey + fmt::Debug, V: fmt::Debug, A: Allocator + Copy> fmt::Debug
    for Iter<'a, K, V, A> {
    /// Writes the pairs that are left, as `[(21, 'a'), (3, 'b')]`. The iterator stays as it is. It
    /// fails only if writing fails.
    fn fmt(&self, f: &mut fmt::Formatter<'_>) -> fmt::Result {
        f.debug_list().entries(self.clone().unwrap()).finish()
    }
}

impl<'a, K: IntKey + fmt::Debug, V, A: Allocator + Copy> fmt::Debug for Keys<'a, K, V, A> {
    /// Writes the keys that are left, as `[21, 3]`. The iterator stays as it is. It fails only if
    /// writing fails.
    fn fmt(&self, f: &mut fmt::Formatter<'_>) -> fmt::Result {
        f.debug_list().entries(self.clone().unwrap()).finish()
    }
}

impl<'a, K: IntKey, V: fmt::Debug, A: Allocator + Copy> fmt::Debug for Values<'a, K, V, A> {
    /// Writes the values that are left, as `['a', 'b']`. The iterator stays as it is. It fails only
    /// if writing fails.
    fn fmt(&self, f: &mut fmt::Formatter<'_>) -> fmt::Result {
        f.debug_list().entries(self.clone().unwrap()).finish()
    }
}

impl<'a, K: IntKey, V, A: Allocator + Copy> FusedIterator for Iter<'a, K, V, A> {}

impl<'a, K: IntKey, V, A: Allocator + Copy> FusedIterator for Keys<'a, K, V, A> {}

impl<'a, K: IntKey, V, A: Allocator + Copy> FusedIterator for Values<'a, K, V, A> {}

impl<'a, K: IntKey, V, A: Allocator + Copy> FusedIterator for IterMut<'a, K, V, A> {}

impl<'a, K: IntKey, V, A: Allocator + Copy> FusedIterator for ValuesMut<'a, K, V, A> {}

impl<'a, K: IntKey, V, A: Allocator + Copy> FusedIterator for Drain<'a, K, V, A> {}

impl<K: IntKey, V, A: Allocator + Copy> FusedIterator for IntoIter<K, V, A> {}

impl<K: IntKey, V, A: Allocator + Copy> FusedIterator for IntoKeys<K, V, A> {}

impl<K: IntKey, V, A: Allocator + Copy> FusedIterator for IntoValues<K, V, A> {}
