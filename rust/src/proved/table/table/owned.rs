//! The pairs of a table by value.

use crate::memory::prelude::*;
use crate::proved::table::key::IntKey;
use crate::proved::table::table::Table;
use crate::proved::table::table::slots::owned::IntoRows;
use crate::memory::alloc::Allocator;

/// The pairs of a table by value, in the order of the walk: those that are left. A step takes the
/// same time however many pairs share a slot.
pub struct IntoPairs<K, X, A: Allocator> {
    rows: IntoRows<K, X, A>,
}

impl<K: IntKey, X, A: Allocator> Table<K, X, A> {
    /// The pairs by value, in the order of the walk. It allocates nothing.
    pub fn into_pairs(self) -> IntoPairs<K, X, A> {
        IntoPairs {
            rows: self.slots.into_rows(),
        }
    }
}

impl<K: IntKey, X, A: Allocator> Iterator for IntoPairs<K, X, A> {
    type Item = (K, X);

    #[inline]
    fn next(&mut self) -> Option<(K, X)> {
        let (key, value) = self.rows.next()?;
        Some((*key.key(), value))
    }
}
