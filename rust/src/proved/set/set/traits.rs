//! Equality of sets, their text, and clones.

use crate::memory::prelude::*;
use crate::proved::set::set::IntSet;
use crate::proved::map::{Cause, IntKey};
use crate::memory::alloc::Allocator;
use core::fmt;

impl<K: IntKey, A: Allocator + Copy> PartialEq for IntSet<K, A> {
    /// Whether both sets have the same members. The order of the walks, the capacities and the
    /// counts don't matter. It never fails, and its comparisons of keys aren't counted.
    fn eq(&self, other: &IntSet<K, A>) -> bool {
        self.map == other.map
    }
}

impl<K: IntKey, A: Allocator + Copy> Eq for IntSet<K, A> {}

impl<K: IntKey, A: Allocator + Copy> IntSet<K, A> {
    /// A set with the same members in the same order, and with the same capacity and load factor.
    /// Its own counts begin at zero. This set stays as it is. No key is compared. Time and memory
    /// grow with the number of slots and of members. It fails only with [`Cause::Memory`], if an
    /// allocation fails.
    pub fn clone(&self) -> Result<IntSet<K, A>, Cause> {
        Ok(IntSet {
            map: self.map.clone()?,
        })
    }
}
