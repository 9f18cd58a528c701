//! New maps, and the calls on one key that insert nothing.
use super::IntMap;
use crate::IntKey;
use crate::memory::alloc::Global;
use crate::proved::map::IntMap as Proved;
use crate::refusal::{Cause, granted};

impl<K: IntKey, V> IntMap<K, V> {
    /// Returns an empty map of 4 slots, with a load factor of 0.909. The cost is *O*(1).
    ///
    /// Unlike std's, it allocates, so [`Default`] and `mem::take` do too, and no map is a constant:
    /// each slot is there from the start, and stable Rust makes no vector of them in a `const`.
    /// Where [`try_new`](Self::try_new) fails, this call ends the process.
    ///
    /// ```
    /// let map = intmap_proved::IntMap::<u64, &str>::new();
    /// assert_eq!((map.len(), map.capacity()), (0, 4));
    /// ```
    #[must_use]
    pub fn new() -> IntMap<K, V> {
        granted(Self::try_new())
    }

    /// The same as [`new`](Self::new), but it returns a failure.
    ///
    /// # Errors
    /// [`Cause::Memory`] if an allocation fails.
    ///
    /// Proved of `IntMap::new`: `state`, `memory`.
    pub fn try_new() -> Result<IntMap<K, V>, Cause> {
        Ok(IntMap { map: Proved::new(Global)? })
    }

    /// Returns an empty map, with a load factor of 0.909. Its capacity is the least power of two
    /// that is at least `capacity`, and at least 2. The cost is *O*(*c*): all slots are written at
    /// once, each with 24 bytes if keys and values are `u64`.
    ///
    /// `capacity` counts slots, not pairs: the insertion of 128 pairs into a map that was made with
    /// 128 doubles them. [`with_room_for`](Self::with_room_for) counts pairs.
    ///
    /// Where [`try_with_capacity`](Self::try_with_capacity) fails, this call panics or ends the
    /// process.
    ///
    /// ```
    /// let map = intmap_proved::IntMap::<u64, &str>::with_capacity(20);
    /// assert_eq!(map.capacity(), 32);
    /// ```
    #[must_use]
    pub fn with_capacity(capacity: usize) -> IntMap<K, V> {
        granted(Self::try_with_capacity(capacity))
    }

    /// The same as [`with_capacity`](Self::with_capacity), but it returns a failure.
    ///
    /// # Errors
    /// [`Cause::TooLarge`] if `capacity` is above 2^63, and otherwise [`Cause::Memory`] if an
    /// allocation fails.
    ///
    /// ```
    /// use intmap_proved::{Cause, IntMap};
    ///
    /// let cause = |capacity| IntMap::<u64, u8>::try_with_capacity(capacity).err();
    /// assert_eq!(cause(1 << 63), Some(Cause::Memory));
    /// assert_eq!(cause((1 << 63) + 1), Some(Cause::TooLarge));
    /// ```
    ///
    /// Proved of `IntMap::with_capacity`: `state`, `capacity`, `too_large`.
    pub fn try_with_capacity(capacity: usize) -> Result<IntMap<K, V>, Cause> {
        Ok(IntMap { map: Proved::with_capacity(Global, capacity)? })
    }

    /// Returns a reference to the value of the key, or `None` if the key is absent. The cost is
    /// *O*(*s*).
    ///
    /// ```
    /// let map = intmap_proved::IntMap::from([(21u64, 'a')]);
    /// assert_eq!((map.get(21), map.get(22)), (Some(&'a'), None));
    /// ```
    ///
    /// Proved of `IntMap::get`: `value`, `member`.
    #[inline]
    pub fn get(&self, key: K) -> Option<&V> {
        self.map.get(key)
    }

    /// Returns a mutable reference to the value of the key, or `None` if the key is absent. The
    /// cost is *O*(*s*).
    ///
    /// ```
    /// let mut map = intmap_proved::IntMap::from([(21u64, 1)]);
    /// if let Some(value) = map.get_mut(21) {
    ///     *value += 1;
    /// }
    /// assert_eq!(map[21], 2);
    /// ```
    ///
    /// Proved of `IntMap::get_mut`: `writes_back`, `value`, `updates`, `len`.
    #[inline]
    pub fn get_mut(&mut self, key: K) -> Option<&mut V> {
        self.map.get_mut(key)
    }

    /// Returns mutable references to the values of several keys at once, each `None` if its key is
    /// absent. The cost is *O*(*s*) for each of the *m* keys, and *O*(*m* log *m*).
    ///
    /// # Panics
    /// If two of the keys are equal and present.
    ///
    /// ```
    /// let mut map = intmap_proved::IntMap::from([(21u64, 1), (22, 2)]);
    /// if let [Some(one), Some(other), None] = map.get_disjoint_mut([22, 21, 23]) {
    ///     std::mem::swap(one, other);
    /// }
    /// assert_eq!((map[21], map[22]), (2, 1));
    /// ```
    ///
    /// ```should_panic
    /// let mut map = intmap_proved::IntMap::from([(21u64, 1)]);
    /// map.get_disjoint_mut([21, 21]);
    /// ```
    ///
    /// Proved in part: the search for each key is proved. The references are lent by hand.
    #[track_caller]
    pub fn get_disjoint_mut<const N: usize>(&mut self, keys: [K; N]) -> [Option<&mut V>; N] {
        self.map.get_disjoint_mut(keys)
    }

    /// Returns references to the key in the map and to its value, or `None` if the key is absent.
    /// The cost is *O*(*s*).
    ///
    /// ```
    /// let map = intmap_proved::IntMap::from([(21u64, 'a')]);
    /// assert_eq!(map.get_key_value(21), Some((&21, &'a')));
    /// ```
    ///
    /// Proved of `IntMap::get_key_value`: `key`, `value`, `by_pair`.
    #[inline]
    pub fn get_key_value(&self, key: K) -> Option<(&K, &V)> {
        self.map.get_key_value(key)
    }

    /// Returns references to the key and the value of the pair that iteration visits first, or
    /// `None` if the map is empty. Its key need not be the least. The cost is *O*(1 + *c*/64).
    ///
    /// ```
    /// let map = intmap_proved::IntMap::from([(4u64, 'b'), (0, 'a')]);
    /// assert_eq!(map.first_key_value(), map.iter().next());
    /// ```
    ///
    /// Proved of `IntMap::first_key_value`: `value`.
    pub fn first_key_value(&self) -> Option<(&K, &V)> {
        self.map.first_key_value()
    }

    /// Returns whether the key is present. The cost is *O*(*s*).
    ///
    /// ```
    /// let map = intmap_proved::IntMap::from([(21u64, 'a')]);
    /// assert!(map.contains_key(21) && !map.contains_key(22));
    /// ```
    ///
    /// Proved of `IntMap::contains_key`: `value`.
    #[inline]
    pub fn contains_key(&self, key: K) -> bool {
        self.map.contains_key(key)
    }

    /// Removes the pair of the key, and returns its value, or `None` if the key is absent. The cost
    /// is *O*(*s*).
    ///
    /// The last pair of the slot takes its place, and the other pairs keep their order. The
    /// capacity and the [memory](IntMap#memory) stay.
    ///
    /// ```
    /// let mut map = intmap_proved::IntMap::from([(21u64, 'a')]);
    /// assert_eq!((map.remove(21), map.remove(21)), (Some('a'), None));
    /// ```
    ///
    /// Proved of `IntMap::remove`: `value`, `state`, `absent`, `updates`, `len`.
    #[inline]
    pub fn remove(&mut self, key: K) -> Option<V> {
        self.map.remove(key)
    }

    /// The same as [`remove`](Self::remove), but it returns `key` beside the value, not the stored
    /// key.
    ///
    /// ```
    /// let mut map = intmap_proved::IntMap::from([(21u64, 'a')]);
    /// assert_eq!(map.remove_entry(21), Some((21, 'a')));
    /// ```
    ///
    /// Proved of `IntMap::remove_entry`: `key`, `value`, `state`, `absent`, `updates`, `len`.
    #[inline]
    pub fn remove_entry(&mut self, key: K) -> Option<(K, V)> {
        self.map.remove_entry(key)
    }
}
