//! What a map is to other code: defaults, clones, equality, text, `map[key]`, and collecting.
use crate::refusal::granted;
use crate::{IntKey, IntMap};
use core::fmt::{self, Debug, Formatter};
use core::ops::Index;

/// The same as [`IntMap::new`].
///
/// ```
/// assert!(intmap_proved::IntMap::<u64, char>::default().is_empty());
/// ```
impl<K: IntKey, V> Default for IntMap<K, V> {
    fn default() -> IntMap<K, V> {
        IntMap::new()
    }
}

/// Clones of the values, with the same order, capacity and load factor. The cost is *O*(*n* + *c*).
/// A failed allocation is handled as std does; [`IntMap::try_clone`] returns it.
///
/// `clone_from` of a map with as many slots keeps the slots and their memory. If the clone of a
/// value panics there, the map has the pairs before that one.
///
/// ```
/// let map = intmap_proved::IntMap::from([(21u64, "a".to_string())]);
/// let mut copy = map.clone();
/// copy.remove(21);
/// copy.clone_from(&map);
/// assert_eq!(copy, map);
/// ```
impl<K: IntKey, V: Clone> Clone for IntMap<K, V> {
    fn clone(&self) -> IntMap<K, V> {
        granted(self.try_clone())
    }

    fn clone_from(&mut self, source: &IntMap<K, V>) {
        if self.capacity() != source.capacity() {
            *self = source.clone();
            return;
        }
        self.clear();
        granted(self.try_set_load_factor_thousandths(source.load_factor_thousandths()));
        self.extend(source.iter().map(|(key, value)| (*key, value.clone())));
    }
}

/// Whether both maps have the same keys, each with equal values. Order, capacity and load factor
/// don't matter. The cost is *O*(*n s* + *c*).
///
/// ```
/// # use intmap_proved::IntMap;
/// assert_eq!(IntMap::from([(0u64, 'a'), (4, 'b')]), IntMap::from([(4, 'b'), (0, 'a')]));
/// ```
impl<K: IntKey, V: PartialEq> PartialEq for IntMap<K, V> {
    fn eq(&self, other: &IntMap<K, V>) -> bool {
        self.map == other.map
    }
}

impl<K: IntKey, V: Eq> Eq for IntMap<K, V> {}

/// Writes the pairs in iteration order.
///
/// ```
/// let map = intmap_proved::IntMap::from([(0u64, 'a'), (1, 'b')]);
/// assert_eq!(format!("{map:?}"), "{0: 'a', 1: 'b'}");
/// ```
impl<K: IntKey + Debug, V: Debug> Debug for IntMap<K, V> {
    fn fmt(&self, f: &mut Formatter<'_>) -> fmt::Result {
        f.debug_map().entries(self).finish()
    }
}

/// `map[key]`, the value of the key.
///
/// # Panics
/// If the key is absent. [`IntMap::get`] returns `None` then.
///
/// ```
/// let map = intmap_proved::IntMap::from([(21u64, 'a')]);
/// assert_eq!(map[21], 'a');
/// ```
///
/// ```should_panic
/// let map = intmap_proved::IntMap::from([(21u64, 'a')]);
/// let _ = map[22];
/// ```
impl<K: IntKey, V> Index<K> for IntMap<K, V> {
    type Output = V;

    #[inline]
    fn index(&self, key: K) -> &V {
        self.get(key).expect("no entry found for key")
    }
}

/// Inserts each pair in turn, as [`IntMap::insert`] does, and reserves nothing ahead. A new map
/// takes random keys in a fifth to a third of the time if [`IntMap::with_room_for`] made it.
/// [`IntMap::try_extend`] returns a failure.
///
/// ```
/// let mut map = intmap_proved::IntMap::from([(21u64, 'a')]);
/// map.extend([(21, 'b'), (22, 'c')]);
/// assert_eq!((map[21], map[22]), ('b', 'c'));
/// ```
impl<K: IntKey, V> Extend<(K, V)> for IntMap<K, V> {
    fn extend<I: IntoIterator<Item = (K, V)>>(&mut self, pairs: I) {
        granted(self.try_extend(pairs))
    }
}

/// Inserts a copy of each pair, such as those of another map, as `extend` by pairs does.
///
/// ```
/// # use intmap_proved::IntMap;
/// let mut map = IntMap::from([(21u64, 'a')]);
/// map.extend(&IntMap::from([(22, 'b')]));
/// assert_eq!(map.len(), 2);
/// ```
impl<'a, K: IntKey, V: Copy> Extend<(&'a K, &'a V)> for IntMap<K, V> {
    fn extend<I: IntoIterator<Item = (&'a K, &'a V)>>(&mut self, pairs: I) {
        self.extend(pairs.into_iter().map(|(key, value)| (*key, *value)))
    }
}

/// Makes a map by [`IntMap::with_capacity`] of the least number of pairs that the iterator says it
/// has, and inserts each pair as [`IntMap::insert`] does. So a key keeps its last value.
/// [`IntMap::try_from_iter`] returns a failure.
///
/// The first capacity doesn't consider the load factor. So if there are more pairs than 0.909 of it,
/// the last of them double it by the rule of [`IntMap::insert`], and all pairs move: 1,000 pairs
/// nearly fill 1,024 slots, and then move to 2,048. [`IntMap::with_room_for`] and `extend` make the
/// 2,048 at once.
///
/// ```
/// # use intmap_proved::IntMap;
/// let map: IntMap<u64, char> = (0..20).zip('a'..).collect();
/// assert_eq!((map.len(), map.capacity()), (20, 32));
/// let map: IntMap<u64, u64> = (0..1000).zip(0..).collect();
/// assert_eq!((map.len(), map.capacity()), (1000, 2048));
/// ```
impl<K: IntKey, V> FromIterator<(K, V)> for IntMap<K, V> {
    fn from_iter<I: IntoIterator<Item = (K, V)>>(pairs: I) -> IntMap<K, V> {
        granted(IntMap::try_from_iter(pairs))
    }
}

/// A map of the pairs of an array, as `collect` makes it. So a key keeps its last value. The first
/// capacity is the least power of two, from 2 on, that is at least `N`. If there are more pairs than
/// 0.909 of it, the last of them double it by the rule of [`IntMap::insert`], and all move.
///
/// ```
/// # use intmap_proved::IntMap;
/// let map = IntMap::from([(21u64, 'a'), (21, 'b')]);
/// assert_eq!((map.len(), map[21]), (1, 'b'));
/// ```
impl<K: IntKey, V, const N: usize> From<[(K, V); N]> for IntMap<K, V> {
    fn from(pairs: [(K, V); N]) -> IntMap<K, V> {
        pairs.into_iter().collect()
    }
}
