//! What a set is to other code: defaults, clones, equality, text, and collecting.
use super::IntSet;
use crate::IntKey;
use crate::refusal::granted;
use core::fmt::{self, Debug, Formatter};

/// The same as [`IntSet::new`].
///
/// ```
/// assert!(intmap_proved::IntSet::<u64>::default().is_empty());
/// ```
impl<K: IntKey> Default for IntSet<K> {
    fn default() -> IntSet<K> {
        IntSet::new()
    }
}

/// The same members in the same order, with the same capacity and load factor.
/// [`IntSet::try_clone`] returns a failure. The cost is *O*(*n* + *c*). `clone_from` of a set with
/// as many slots keeps the slots and their memory.
///
/// ```
/// let set = intmap_proved::IntSet::from([21u64]);
/// assert_eq!(set.clone(), set);
/// ```
impl<K: IntKey> Clone for IntSet<K> {
    fn clone(&self) -> IntSet<K> {
        granted(self.try_clone())
    }

    fn clone_from(&mut self, source: &IntSet<K>) {
        if self.capacity() != source.capacity() {
            *self = source.clone();
            return;
        }
        self.clear();
        granted(self.try_set_load_factor_thousandths(source.load_factor_thousandths()));
        self.extend(source);
    }
}

/// Whether both sets have the same members. Order and capacity don't matter.
///
/// ```
/// # use intmap_proved::IntSet;
/// assert_eq!(IntSet::from([0u64, 4]), IntSet::from([4, 0]));
/// ```
impl<K: IntKey> PartialEq for IntSet<K> {
    fn eq(&self, other: &IntSet<K>) -> bool {
        self.set == other.set
    }
}

impl<K: IntKey> Eq for IntSet<K> {}

/// Writes the members in iteration order.
///
/// ```
/// assert_eq!(format!("{:?}", intmap_proved::IntSet::from([0u64, 1])), "{0, 1}");
/// ```
impl<K: IntKey + Debug> Debug for IntSet<K> {
    fn fmt(&self, f: &mut Formatter<'_>) -> fmt::Result {
        f.debug_set().entries(self).finish()
    }
}

/// Inserts each key in turn, and reserves nothing ahead. [`IntSet::try_extend`] returns a failure.
///
/// ```
/// let mut set = intmap_proved::IntSet::from([21u64]);
/// set.extend([21, 22]);
/// assert_eq!(set.len(), 2);
/// ```
impl<K: IntKey> Extend<K> for IntSet<K> {
    fn extend<I: IntoIterator<Item = K>>(&mut self, keys: I) {
        granted(self.try_extend(keys))
    }
}

/// Inserts a copy of each key, such as those of another set, as `extend` by keys does.
///
/// ```
/// # use intmap_proved::IntSet;
/// let mut set = IntSet::from([21u64]);
/// set.extend(&IntSet::from([22]));
/// assert_eq!(set.len(), 2);
/// ```
impl<'a, K: IntKey> Extend<&'a K> for IntSet<K> {
    fn extend<I: IntoIterator<Item = &'a K>>(&mut self, keys: I) {
        self.extend(keys.into_iter().copied())
    }
}

/// Makes a set by [`IntSet::with_capacity`] of the least number of keys that the iterator says it
/// has, and inserts each key as [`IntSet::insert`] does. [`IntSet::try_from_iter`] returns a
/// failure.
///
/// The first capacity doesn't consider the load factor. So if there are more members than 0.909 of
/// it, the last of them double it by the rule of [`IntMap::insert`](crate::IntMap::insert), and all
/// members move. [`IntSet::with_room_for`] and `extend` make the last capacity at once.
///
/// ```
/// let set: intmap_proved::IntSet<u64> = (0..20).collect();
/// assert_eq!((set.len(), set.capacity()), (20, 32));
/// ```
impl<K: IntKey> FromIterator<K> for IntSet<K> {
    fn from_iter<I: IntoIterator<Item = K>>(keys: I) -> IntSet<K> {
        granted(IntSet::try_from_iter(keys))
    }
}

/// A set of the keys of an array, as `collect` makes it. The first capacity is the least power of
/// two, from 2 on, that is at least `N`. If there are more members than 0.909 of it, the last of
/// them double it by the rule of [`IntMap::insert`](crate::IntMap::insert), and all move.
///
/// ```
/// assert_eq!(intmap_proved::IntSet::from([21u64, 21]).len(), 1);
/// ```
impl<K: IntKey, const N: usize> From<[K; N]> for IntSet<K> {
    fn from(keys: [K; N]) -> IntSet<K> {
        keys.into_iter().collect()
    }
}
