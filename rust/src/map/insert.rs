//! Insertions.
use super::IntMap;
use crate::IntKey;
use crate::refusal::{Refused, granted};

impl<K: IntKey, V> IntMap<K, V> {
    /// Inserts the pair, and returns the value that the key had, if it was present.
    ///
    /// The new pair is the last one of its slot. The pair of a present key is removed first, and
    /// the last pair of the slot takes its place. Only a new key can make the map grow, and only if
    /// the map then has 4 to 7 pairs, 12 to 15, 20 to 23, and so on: if these exceed the load
    /// factor, the capacity doubles until they don't. At other numbers of pairs the load isn't
    /// checked. That is the rule of Rust's `intmap` 2.0.0, kept so that capacities are the same.
    ///
    /// The cost is *O*(*s*), and *O*(*n* + *c*) for an insertion that doubles the slots, or for
    /// which the [nodes](IntMap#memory) move to more memory. That is *O*(*s*) amortized. Where
    /// [`try_insert`](Self::try_insert) fails, this call panics or ends the process.
    ///
    /// ```
    /// let mut map = intmap_proved::IntMap::from([(0u64, 'a'), (4, 'b')]);
    /// assert_eq!(map.insert(0, 'z'), Some('a'));
    /// assert_eq!(format!("{map:?}"), "{4: 'b', 0: 'z'}");
    /// ```
    #[inline(always)]
    pub fn insert(&mut self, key: K, value: V) -> Option<V> {
        granted(self.try_insert(key, value))
    }

    /// The same as [`insert`](Self::insert), but it returns a failure. It replaces the value of a
    /// present key, where hashbrown's `try_insert` and std's unstable one fail:
    /// [`try_insert_checked`](Self::try_insert_checked) keeps that value.
    ///
    /// # Errors
    /// [`TooLarge`](crate::Cause::TooLarge) if the map would need more than 2^63 slots or have 2^64
    /// pairs, [`Memory`](crate::Cause::Memory) if an allocation fails, both with the value. The map
    /// then stays as it was. It never fails if the key is present, nor if no other key shares its
    /// slot and the capacity stays.
    ///
    /// ```
    /// use intmap_proved::{IntMap, Refused};
    ///
    /// let mut map = IntMap::new();
    /// assert_eq!(map.try_insert(21u64, 'a')?, None);
    /// assert_eq!(map.try_insert(21, 'b')?, Some('a'));
    /// # Ok::<(), Refused<char>>(())
    /// ```
    ///
    /// Proved of `IntMap::insert`: `old`, `inserted`, `updates`, `len`, `state`, `err`,
    /// `value_returned`, `absent`, `refused`, `succeeds`, `has_room`.
    #[inline(always)]
    pub fn try_insert(&mut self, key: K, value: V) -> Result<Option<V>, Refused<V>> {
        // a guard holds the map only where a `number` is called once a pair has changed
        self.map.insert(key, value)
    }

    /// Inserts the pair if the key is absent, and returns whether it was. A present key keeps its
    /// value, and `value` is dropped. The cost is that of [`insert`](Self::insert). Where
    /// [`try_insert_checked`](Self::try_insert_checked) fails, this call panics or ends the
    /// process.
    ///
    /// ```
    /// let mut map = intmap_proved::IntMap::new();
    /// assert!(map.insert_checked(21u64, 'a'));
    /// assert!(!map.insert_checked(21, 'b'));
    /// assert_eq!(map[21], 'a');
    /// ```
    #[inline(always)]
    pub fn insert_checked(&mut self, key: K, value: V) -> bool {
        granted(self.try_insert_checked(key, value))
    }

    /// The same as [`insert_checked`](Self::insert_checked), but it returns a failure.
    ///
    /// # Errors
    /// Those of [`try_insert`](Self::try_insert), with the value.
    ///
    /// Proved of `IntMap::insert_checked`: `new`, `inserted`, `updates`, `len`, `state`, `err`,
    /// `value_returned`, `absent`, `refused`, `succeeds`, `has_room`.
    #[inline(always)]
    pub fn try_insert_checked(&mut self, key: K, value: V) -> Result<bool, Refused<V>> {
        // held by a guard as in `try_insert`
        self.map.insert_checked(key, value)
    }
}
