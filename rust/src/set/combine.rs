//! Two sets: what they have in common, and what not.
use super::{Difference, IntSet, Intersection, SymmetricDifference, Union};
use crate::IntKey;
use core::ops::{BitAnd, BitAndAssign, BitOr, BitOrAssign, BitXor, BitXorAssign, Sub, SubAssign};

impl<K: IntKey> IntSet<K> {
    /// Returns an iterator over the members that are absent from `other`, in the order of this set.
    /// A step looks up the next members of this set in `other`.
    ///
    /// ```
    /// # use intmap_proved::IntSet;
    /// let (first, second) = (IntSet::from([1u64, 2, 3]), IntSet::from([2, 3, 4]));
    /// assert_eq!(first.difference(&second).collect::<Vec<_>>(), [&1]);
    /// ```
    ///
    /// Proved of `IntSet::difference`: `walk`, `members`, `runs`.
    pub fn difference<'a>(&'a self, other: &'a IntSet<K>) -> Difference<'a, K> {
        let bounds = (self.len().saturating_sub(other.len()), self.len());
        Difference { inner: self.set.difference(&other.set), bounds }
    }

    /// Returns an iterator over the members that both sets have, in the order of the set with fewer
    /// members, or of this one if both have the same number. It looks the members of that set up in
    /// the other.
    ///
    /// ```
    /// # use intmap_proved::IntSet;
    /// let (first, second) = (IntSet::from([1u64, 2, 3]), IntSet::from([2, 3, 4]));
    /// assert_eq!(first.intersection(&second).collect::<Vec<_>>(), [&2, &3]);
    /// ```
    ///
    /// Proved of `IntSet::intersection`: `walk`, `members`, `runs`.
    pub fn intersection<'a>(&'a self, other: &'a IntSet<K>) -> Intersection<'a, K> {
        let bounds = (0, self.len().min(other.len()));
        Intersection { inner: self.set.intersection(&other.set), bounds }
    }

    /// Returns an iterator over the members of either set, each once. It first returns the members
    /// of the set with more members, or of this one if both have the same number, and then those
    /// that only the other has, each in the order of its set.
    ///
    /// ```
    /// # use intmap_proved::IntSet;
    /// let (first, second) = (IntSet::from([1u64, 2, 3]), IntSet::from([2, 3, 4]));
    /// assert_eq!(first.union(&second).collect::<Vec<_>>(), [&1, &2, &3, &4]);
    /// ```
    ///
    /// Proved of `IntSet::union`: `walk`, `members`, `runs`.
    pub fn union<'a>(&'a self, other: &'a IntSet<K>) -> Union<'a, K> {
        let bounds = (self.len().max(other.len()), self.len() + other.len());
        Union { inner: self.set.union(&other.set), bounds }
    }

    /// Returns an iterator over the members that exactly one of the sets has: first those that only
    /// this set has, and then those that only `other` has, each in the order of its set.
    ///
    /// ```
    /// # use intmap_proved::IntSet;
    /// let (first, second) = (IntSet::from([1u64, 2, 3]), IntSet::from([2, 3, 4]));
    /// assert_eq!(first.symmetric_difference(&second).collect::<Vec<_>>(), [&1, &4]);
    /// ```
    ///
    /// Proved of `IntSet::symmetric_difference`: `walk`, `members`, `runs`.
    pub fn symmetric_difference<'a>(&'a self, other: &'a IntSet<K>) -> SymmetricDifference<'a, K> {
        let bounds = (self.len().abs_diff(other.len()), self.len() + other.len());
        SymmetricDifference { inner: self.set.symmetric_difference(&other.set), bounds }
    }

    /// Returns whether each member is one of `other`. It looks the members up in turn, up to the
    /// first that is absent from `other`.
    ///
    /// ```
    /// # use intmap_proved::IntSet;
    /// assert!(IntSet::from([1u64, 2]).is_subset(&IntSet::from([1, 2, 3])));
    /// ```
    ///
    /// Proved of `IntSet::is_subset`: `value`.
    pub fn is_subset(&self, other: &IntSet<K>) -> bool {
        self.set.is_subset(&other.set)
    }

    /// Returns whether each member of `other` is one of this set. It looks the members of `other`
    /// up in turn, up to the first that is absent from this set.
    ///
    /// ```
    /// # use intmap_proved::IntSet;
    /// assert!(IntSet::from([1u64, 2, 3]).is_superset(&IntSet::from([1, 2])));
    /// ```
    ///
    /// Proved of `IntSet::is_superset`: `value`.
    pub fn is_superset(&self, other: &IntSet<K>) -> bool {
        self.set.is_superset(&other.set)
    }

    /// Returns whether no member is one of `other`. It looks the members of the smaller set up in
    /// the other, up to the first that both have.
    ///
    /// ```
    /// # use intmap_proved::IntSet;
    /// assert!(IntSet::from([1u64, 2]).is_disjoint(&IntSet::from([3])));
    /// ```
    ///
    /// Proved of `IntSet::is_disjoint`: `value`.
    pub fn is_disjoint(&self, other: &IntSet<K>) -> bool {
        self.set.is_disjoint(&other.set)
    }
}

/// A set of members that has room for so many from the start.
fn made_of<'a, K: IntKey + 'a>(members: impl Iterator<Item = &'a K>, room: usize) -> IntSet<K> {
    let mut set = IntSet::with_room_for(room);
    set.extend(members);
    set
}

/// Writes an operator on two sets by reference, which makes a set.
macro_rules! operators {
    ($($(#[$doc:meta])* $operator:ident $call:ident = $members:ident, $room:expr;)*) => { $(
        $(#[$doc])*
        ///
        /// A failed allocation ends the process.
        impl<K: IntKey> $operator<&IntSet<K>> for &IntSet<K> {
            type Output = IntSet<K>;

            fn $call(self, other: &IntSet<K>) -> IntSet<K> {
                let members = self.$members(other);
                let room = $room(members.bounds);
                made_of(members, room)
            }
        }
    )* };
}

operators! {
    /// The members of either set, inserted in the order of [`union`](IntSet::union) into a set that
    /// has room for the members of both from the start.
    ///
    /// ```
    /// # use intmap_proved::IntSet;
    /// assert_eq!(&IntSet::from([1u64, 2]) | &IntSet::from([2, 3]), IntSet::from([1, 2, 3]));
    /// ```
    BitOr bitor = union, |(_, most)| most;

    /// The members of both sets, as [`intersection`](IntSet::intersection) and `collect` make them.
    ///
    /// ```
    /// # use intmap_proved::IntSet;
    /// assert_eq!(&IntSet::from([1u64, 2]) & &IntSet::from([2, 3]), IntSet::from([2]));
    /// ```
    BitAnd bitand = intersection, |(least, _)| least;

    /// The members that exactly one of the sets has, inserted in the order of
    /// [`symmetric_difference`](IntSet::symmetric_difference) into a set that has room for the
    /// least number that there can be.
    ///
    /// ```
    /// # use intmap_proved::IntSet;
    /// assert_eq!(&IntSet::from([1u64, 2]) ^ &IntSet::from([2, 3]), IntSet::from([1, 3]));
    /// ```
    BitXor bitxor = symmetric_difference, |(least, _)| least;

    /// The members of the first set that are absent from the second, inserted in the order of
    /// [`difference`](IntSet::difference) into a set that has room for the least number that there
    /// can be.
    ///
    /// ```
    /// # use intmap_proved::IntSet;
    /// assert_eq!(&IntSet::from([1u64, 2]) - &IntSet::from([2, 3]), IntSet::from([1]));
    /// ```
    Sub sub = difference, |(least, _)| least;
}

/// Inserts the members of the other set, as `extend` does. A failed allocation ends the process.
///
/// ```
/// # use intmap_proved::IntSet;
/// let mut set = IntSet::from([1u64, 2]);
/// set |= &IntSet::from([2, 3]);
/// set ^= &IntSet::from([3, 4]);
/// assert_eq!(set, IntSet::from([1, 2, 4]));
/// ```
impl<K: IntKey> BitOrAssign<&IntSet<K>> for IntSet<K> {
    fn bitor_assign(&mut self, other: &IntSet<K>) {
        self.extend(other)
    }
}

/// Removes each member of the other set that is one of this set, and inserts each that isn't. A
/// failed allocation ends the process.
impl<K: IntKey> BitXorAssign<&IntSet<K>> for IntSet<K> {
    fn bitxor_assign(&mut self, other: &IntSet<K>) {
        for key in other {
            if !self.remove(*key) {
                self.insert(*key);
            }
        }
    }
}

/// Keeps the members that are in the other set, in their order.
///
/// ```
/// # use intmap_proved::IntSet;
/// let mut set = IntSet::from([1u64, 2, 3]);
/// set &= &IntSet::from([2, 3, 4]);
/// set -= &IntSet::from([3]);
/// assert_eq!(set, IntSet::from([2]));
/// ```
impl<K: IntKey> BitAndAssign<&IntSet<K>> for IntSet<K> {
    fn bitand_assign(&mut self, other: &IntSet<K>) {
        self.retain(|key| other.contains(key))
    }
}

/// Removes the members of the other set. If that has fewer, each is removed as by
/// [`remove`](IntSet::remove). Otherwise the members that stay keep their order.
impl<K: IntKey> SubAssign<&IntSet<K>> for IntSet<K> {
    fn sub_assign(&mut self, other: &IntSet<K>) {
        if other.len() < self.len() {
            other.iter().for_each(|key| _ = self.remove(*key))
        } else {
            self.retain(|key| !other.contains(key))
        }
    }
}
