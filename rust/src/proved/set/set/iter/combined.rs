//! The iterators over two sets. As they go, they look up the members of one in the other.

use crate::memory::prelude::*;
use crate::proved::set::set::IntSet;
use crate::proved::set::set::iter::Keys;
use crate::proved::map::IntKey;
use crate::memory::alloc::{Allocator, Global};

/// The members of one set that are absent from another, by reference, made by
/// [`IntSet::difference`](crate::proved::set::IntSet::difference). Contracts see it as the list of those that
/// are left.
pub struct Difference<'a, K, A: Allocator + Copy = Global> {
    pub(in crate::proved::set) keys: Keys<'a, K, (), A>,
    pub(in crate::proved::set) other: &'a IntSet<K, A>,
}

impl<'a, K: IntKey, A: Allocator + Copy> Iterator for Difference<'a, K, A> {
    type Item = &'a K;

    fn next(&mut self) -> Option<&'a K> {
        while let Some(key) = self.keys.next() {
            if !self.other.contains(*key) {
                return Some(key);
            }
        }
        None
    }
}

/// The members that two sets have, by reference, made by
/// [`IntSet::intersection`](crate::proved::set::IntSet::intersection). Contracts see it as the list of those
/// that are left.
pub struct Intersection<'a, K, A: Allocator + Copy = Global> {
    pub(in crate::proved::set) keys: Keys<'a, K, (), A>,
    pub(in crate::proved::set) other: &'a IntSet<K, A>,
}

impl<'a, K: IntKey, A: Allocator + Copy> Iterator for Intersection<'a, K, A> {
    type Item = &'a K;

    fn next(&mut self) -> Option<&'a K> {
        while let Some(key) = self.keys.next() {
            if self.other.contains(*key) {
                return Some(key);
            }
        }
        None
    }
}

/// The members of either set by reference, made by [`IntSet::union`](crate::proved::set::IntSet::union).
/// Contracts see it as the list of those that are left.
pub struct Union<'a, K, A: Allocator + Copy = Global> {
    pub(in crate::proved::set) first: Keys<'a, K, (), A>,
    pub(in crate::proved::set) second: Difference<'a, K, A>,
}

impl<'a, K: IntKey, A: Allocator + Copy> Iterator for Union<'a, K, A> {
    type Item = &'a K;

    fn next(&mut self) -> Option<&'a K> {
        if let Some(key) = self.first.next() {
            return Some(key);
        }
        self.second.next()
    }
}

/// The members that exactly one of two sets has, by reference, made by
/// [`IntSet::symmetric_difference`](crate::proved::set::IntSet::symmetric_difference). Contracts see it as the
/// list of those that are left.
pub struct SymmetricDifference<'a, K, A: Allocator + Copy = Global> {
    pub(in crate::proved::set) first: Difference<'a, K, A>,
    pub(in crate::proved::set) second: Difference<'a, K, A>,
}

impl<'a, K: IntKey, A: Allocator + Copy> Iterator for SymmetricDifference<'a, K, A> {
    type Item = &'a K;

    fn next(&mut self) -> Option<&'a K> {
        if let Some(key) = self.first.next() {
            return Some(key);
        }
        self.second.next()
    }
}
