//! The calls that make iterators.
use super::IntMap;
use crate::IntKey;
use crate::iter::{IntoIter, IntoKeys, IntoValues, Iter, IterMut, Keys, Values, ValuesMut};

impl<K: IntKey, V> IntMap<K, V> {
    /// Returns an iterator over the pairs, in iteration order. It doesn't allocate. All steps
    /// together cost *O*(*n* + *c*).
    ///
    /// ```
    /// let map = intmap_proved::IntMap::from([(0u64, 'a'), (1, 'b')]);
    /// assert_eq!(map.iter().collect::<Vec<_>>(), [(&0, &'a'), (&1, &'b')]);
    /// ```
    ///
    /// Proved of `IntMap::iter`: `walk`, `runs`.
    #[inline]
    pub fn iter(&self) -> Iter<'_, K, V> {
        Iter { left: self.len(), inner: self.map.iter() }
    }

    /// Returns an iterator over the pairs, in iteration order, by which the values can be changed.
    /// It doesn't allocate. All steps together cost *O*(*n* + *c*). If keys share a slot, one step
    /// may cost that much alone, and so may this call if such keys were removed.
    ///
    /// Rust lends the elements of a vector one by one in the order in which they lie there. So the
    /// first step that finds a [node](IntMap#memory) elsewhere than behind the last one moves all
    /// nodes that are left to where they lie in iteration order. If some are free, this call moves
    /// all. They stay there until the map grows, or a pair that shares a slot is inserted or
    /// removed. [`for_each_mut`](Self::for_each_mut) moves none.
    ///
    /// ```
    /// let mut map = intmap_proved::IntMap::from([(0u64, 1), (1, 2)]);
    /// for (key, value) in map.iter_mut() {
    ///     *value += *key;
    /// }
    /// assert_eq!(map[1], 3);
    /// ```
    #[inline]
    pub fn iter_mut(&mut self) -> IterMut<'_, K, V> {
        IterMut { left: self.len(), inner: self.map.iter_mut() }
    }

    /// Returns an iterator over the keys, in iteration order. The cost is that of
    /// [`iter`](Self::iter).
    ///
    /// ```
    /// let map = intmap_proved::IntMap::from([(0u64, 'a'), (1, 'b')]);
    /// assert_eq!(map.keys().sum::<u64>(), 1);
    /// ```
    ///
    /// Proved of `IntMap::keys`: `walk`, `len`, `runs`.
    #[inline]
    pub fn keys(&self) -> Keys<'_, K, V> {
        Keys { left: self.len(), inner: self.map.keys() }
    }

    /// Returns an iterator over the values, in iteration order. The cost is that of
    /// [`iter`](Self::iter).
    ///
    /// ```
    /// let map = intmap_proved::IntMap::from([(0u64, 'a'), (1, 'b')]);
    /// assert_eq!(map.values().collect::<String>(), "ab");
    /// ```
    ///
    /// Proved of `IntMap::values`: `walk`, `len`, `runs`.
    #[inline]
    pub fn values(&self) -> Values<'_, K, V> {
        Values { left: self.len(), inner: self.map.values() }
    }

    /// Returns an iterator over the values, in iteration order, by which they can be changed. The
    /// cost is that of [`iter_mut`](Self::iter_mut).
    ///
    /// ```
    /// let mut map = intmap_proved::IntMap::from([(0u64, 1), (1, 2)]);
    /// map.values_mut().for_each(|value| *value += 1);
    /// assert_eq!((map[0], map[1]), (2, 3));
    /// ```
    #[inline]
    pub fn values_mut(&mut self) -> ValuesMut<'_, K, V> {
        ValuesMut { left: self.len(), inner: self.map.values_mut() }
    }

    /// Returns an iterator over the keys by value, in iteration order. Each value is dropped as its
    /// key is returned, and the rest as the iterator is dropped. The cost is that of
    /// [`iter`](Self::iter).
    ///
    /// ```
    /// let map = intmap_proved::IntMap::from([(0u64, 'a'), (1, 'b')]);
    /// assert_eq!(map.into_keys().collect::<Vec<_>>(), [0, 1]);
    /// ```
    ///
    /// Proved of `IntMap::into_keys`: `walk`, `len`, `runs`.
    #[inline]
    pub fn into_keys(self) -> IntoKeys<K, V> {
        IntoKeys { left: self.len(), inner: self.map.into_keys() }
    }

    /// Returns an iterator over the values by value, in iteration order. The cost is that of
    /// [`iter`](Self::iter).
    ///
    /// ```
    /// let map = intmap_proved::IntMap::from([(0u64, 'a'), (1, 'b')]);
    /// assert_eq!(map.into_values().collect::<String>(), "ab");
    /// ```
    ///
    /// Proved of `IntMap::into_values`: `walk`, `len`, `runs`.
    #[inline]
    pub fn into_values(self) -> IntoValues<K, V> {
        IntoValues { left: self.len(), inner: self.map.into_values() }
    }
}

/// The same as [`iter`](IntMap::iter).
///
/// ```
/// let map = intmap_proved::IntMap::from([(21u64, 'a')]);
/// for (key, value) in &map {
///     assert_eq!((key, value), (&21, &'a'));
/// }
/// ```
impl<'a, K: IntKey, V> IntoIterator for &'a IntMap<K, V> {
    type Item = (&'a K, &'a V);
    type IntoIter = Iter<'a, K, V>;

    #[inline]
    fn into_iter(self) -> Iter<'a, K, V> {
        self.iter()
    }
}

/// The same as [`iter_mut`](IntMap::iter_mut).
///
/// ```
/// let mut map = intmap_proved::IntMap::from([(21u64, 1)]);
/// for (_, value) in &mut map {
///     *value += 1;
/// }
/// assert_eq!(map[21], 2);
/// ```
impl<'a, K: IntKey, V> IntoIterator for &'a mut IntMap<K, V> {
    type Item = (&'a K, &'a mut V);
    type IntoIter = IterMut<'a, K, V>;

    #[inline]
    fn into_iter(self) -> IterMut<'a, K, V> {
        self.iter_mut()
    }
}

/// Returns an iterator over the pairs by value, in iteration order. The cost is that of
/// [`iter`](IntMap::iter).
///
/// ```
/// let map = intmap_proved::IntMap::from([(0u64, 'a'), (1, 'b')]);
/// assert_eq!(map.into_iter().collect::<Vec<_>>(), [(0, 'a'), (1, 'b')]);
/// ```
impl<K: IntKey, V> IntoIterator for IntMap<K, V> {
    type Item = (K, V);
    type IntoIter = IntoIter<K, V>;

    #[inline]
    fn into_iter(self) -> IntoIter<K, V> {
        IntoIter { left: self.len(), inner: self.map.into_iter() }
    }
}
