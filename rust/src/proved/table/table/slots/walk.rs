//! The pairs of the slots by reference, slot after slot.

use crate::memory::prelude::*;
use crate::proved::table::bits::Indices;
use crate::proved::table::key::IntKey;
use crate::proved::table::linked::node::Node;
use crate::proved::table::linked::pool::Pool;
use crate::proved::table::table::stored::Stored;
use crate::memory::alloc::{AllocError, Allocator};

/// The pairs that are left: those that `link` leads through, then those of the slots whose numbers
/// `filled` has left. Each of these slots holds a pair.
pub struct Pairs<'a, K, X, A: Allocator> {
    pub(super) link: usize,
    pub(super) filled: Indices<'a>,
    pub(super) slots: &'a [Node<(Stored<K>, X)>],
    pub(super) pool: &'a Pool<(Stored<K>, X), A>,
}

impl<'a, K: IntKey, X, A: Allocator> Clone for Pairs<'a, K, X, A> {
    fn clone(&self) -> Result<Pairs<'a, K, X, A>, AllocError> {
        Ok(Pairs {
            link: self.link,
            filled: self.filled.clone()?,
            slots: self.slots,
            pool: self.pool,
        })
    }
}

impl<'a, K: IntKey, X, A: Allocator> Pairs<'a, K, X, A> {
    /// The next stored pair.
    #[inline(always)]
    fn next_pair(&mut self) -> Option<&'a (Stored<K>, X)> {
        if let Some((next, pair)) = self.pool.get(self.link) {
            self.link = next;
            return Some(pair);
        }
        let Some(index) = self.filled.next() else {
            return None;
        };
        let Some((next, first)) = self.slots[index].get() else {
            unreachable!();
        };
        self.link = next;
        Some(first)
    }
}

impl<'a, K: IntKey, X, A: Allocator> Iterator for Pairs<'a, K, X, A> {
    type Item = (&'a K, &'a X);

    #[inline]
    fn next(&mut self) -> Option<(&'a K, &'a X)> {
        let pair = self.next_pair()?;
        Some((pair.0.key(), &pair.1))
    }
}
