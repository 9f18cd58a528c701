//! Two sets: their union, their intersection, their differences, and whether one is within another.

use crate::memory::prelude::*;
use crate::proved::set::set::IntSet;
use crate::proved::set::set::iter::{Difference, Intersection, SymmetricDifference, Union};
use crate::proved::map::IntKey;
use crate::memory::alloc::Allocator;

impl<K: IntKey, A: Allocator + Copy> IntSet<K, A> {
    /// An iterator over the members of this set that are absent from `other`, in the order of this
    /// set. A step looks up the next members of this set in `other`. Neither this call nor a step
    /// fails.
    ///
    /// It makes no set. [`IntSet::from_iter`] makes a set of these members, as below, and may fail.
    /// The same holds for the iterators of the other three calls.
    pub fn difference<'a>(&'a self, other: &'a IntSet<K, A>) -> Difference<'a, K, A> {
        other.known();
        Difference {
            keys: self.iter(),
            other,
        }
    }

    /// An iterator over the members that both sets have, in the order of the set with fewer
    /// members, or of this one if both have the same number. A step looks up the next members of
    /// that set in the other. Neither this call nor a step fails.
    pub fn intersection<'a>(&'a self, other: &'a IntSet<K, A>) -> Intersection<'a, K, A> {
        if other.len() < self.len() {
            return Intersection {
                keys: other.iter(),
                other: self,
            };
        }
        Intersection {
            keys: self.iter(),
            other,
        }
    }

    /// An iterator over the members of either set, each once. It first gives the members of the set
    /// with more members, or of this one if both have the same number, and then those that only the
    /// other has. Only the latter are looked up. Neither this call nor a step fails.
    pub fn union<'a>(&'a self, other: &'a IntSet<K, A>) -> Union<'a, K, A> {
        if self.len() < other.len() {
            return Union {
                first: other.iter(),
                second: self.difference(other),
            };
        }
        Union {
            first: self.iter(),
            second: other.difference(self),
        }
    }

    /// An iterator over the members that exactly one of the sets has: first those that only this
    /// set has, and then those that only `other` has. Neither this call nor a step fails.
    pub fn symmetric_difference<'a>(
        &'a self,
        other: &'a IntSet<K, A>,
    ) -> SymmetricDifference<'a, K, A> {
        SymmetricDifference {
            first: self.difference(other),
            second: other.difference(self),
        }
    }

    /// Whether each member of this set is one of `other`. It looks up the members in turn, up to
    /// the first that is absent from `other`. It never fails.
    pub fn is_subset(&self, other: &IntSet<K, A>) -> bool {
        self.difference(other).next().is_none()
    }

    /// Whether each member of `other` is one of this set. It never fails.
    pub fn is_superset(&self, other: &IntSet<K, A>) -> bool {
        other.is_subset(self)
    }

    /// Whether no member of this set is one of `other`. It looks up the members of the smaller set
    /// in the other, up to the first that both have. It never fails.
    pub fn is_disjoint(&self, other: &IntSet<K, A>) -> bool {
        self.intersection(other).next().is_none()
    }
}
