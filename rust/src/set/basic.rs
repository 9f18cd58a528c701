//! New sets, and the calls on one key.
use super::{Cause, Global, IntKey, IntSet, Proved, granted};

impl<K: IntKey> IntSet<K> {
    /// Returns an empty set of 4 slots, with a load factor of 0.909. Unlike std's, it allocates.
    /// The cost is *O*(1). Where [`try_new`](Self::try_new) fails, this call ends the process.
    ///
    /// ```
    /// let set = intmap_proved::IntSet::<u64>::new();
    /// assert_eq!((set.len(), set.capacity()), (0, 4));
    /// ```
    #[must_use]
    pub fn new() -> IntSet<K> {
        granted(Self::try_new())
    }

    /// The same as [`new`](Self::new), but it returns a failure.
    ///
    /// # Errors
    /// [`Cause::Memory`] if an allocation fails.
    ///
    /// Proved of `IntSet::new`: `state`, `memory`.
    pub fn try_new() -> Result<IntSet<K>, Cause> {
        Ok(IntSet { set: Proved::new(Global)? })
    }

    /// Returns an empty set, with a load factor of 0.909. Its capacity is the least power of two
    /// that is at least `capacity`, and at least 2. The cost is *O*(*c*): all slots are written at
    /// once, each with 16 bytes for `u64` keys.
    ///
    /// `capacity` counts slots, not members, so the insertion of `capacity` keys may double them;
    /// [`with_room_for`](Self::with_room_for) counts members. Where
    /// [`try_with_capacity`](Self::try_with_capacity) fails, this call panics or ends the process.
    ///
    /// ```
    /// assert_eq!(intmap_proved::IntSet::<u64>::with_capacity(20).capacity(), 32);
    /// ```
    #[must_use]
    pub fn with_capacity(capacity: usize) -> IntSet<K> {
        granted(Self::try_with_capacity(capacity))
    }

    /// The same as [`with_capacity`](Self::with_capacity), but it returns a failure.
    ///
    /// # Errors
    /// [`Cause::TooLarge`] if `capacity` is above 2^63, and otherwise [`Cause::Memory`] if an
    /// allocation fails.
    ///
    /// Proved of `IntSet::with_capacity`: `state`, `capacity`, `too_large`.
    pub fn try_with_capacity(capacity: usize) -> Result<IntSet<K>, Cause> {
        Ok(IntSet { set: Proved::with_capacity(Global, capacity)? })
    }

    /// Makes the key a member, and returns whether it is new. A new member is the last one of its
    /// slot. Cost and capacity are those of [`IntMap::insert`](crate::IntMap::insert), and the
    /// other members of a slot keep their order. Where [`try_insert`](Self::try_insert) fails, this
    /// call panics or ends the process.
    ///
    /// ```
    /// let mut set = intmap_proved::IntSet::new();
    /// assert!(set.insert(21u64));
    /// assert!(!set.insert(21));
    /// ```
    #[inline]
    pub fn insert(&mut self, key: K) -> bool {
        granted(self.try_insert(key))
    }

    /// The same as [`insert`](Self::insert), but it returns a failure.
    ///
    /// # Errors
    /// [`Cause::TooLarge`] if the set would need more than 2^63 slots or have 2^64 members,
    /// [`Cause::Memory`] if an allocation fails. The set then stays as it was. It never fails if
    /// the key is a member, nor if no member shares its slot and the capacity stays.
    ///
    /// Proved of `IntSet::insert`: `new`, `inserted`, `updates`, `len`, `state`, `err`, `absent`,
    /// `refused`, `succeeds`, `has_room`.
    #[inline]
    pub fn try_insert(&mut self, key: K) -> Result<bool, Cause> {
        // held by a guard as in `try_insert` of maps
        self.set.insert(key)
    }

    /// Returns whether the key is a member. The cost is *O*(*s*).
    ///
    /// ```
    /// let set = intmap_proved::IntSet::from([21u64]);
    /// assert!(set.contains(21) && !set.contains(22));
    /// ```
    ///
    /// Proved of `IntSet::contains`: `value`.
    #[inline]
    pub fn contains(&self, key: K) -> bool {
        self.set.contains(key)
    }

    /// Returns a reference to the member that is equal to the key, or `None` if there is none. The
    /// cost is *O*(*s*).
    ///
    /// ```
    /// let set = intmap_proved::IntSet::from([21u64]);
    /// assert_eq!((set.get(21), set.get(22)), (Some(&21), None));
    /// ```
    ///
    /// Proved in part: it is [`IntMap::get_key_value`](crate::IntMap::get_key_value), on the map
    /// from each member to `()`.
    #[inline]
    pub fn get(&self, key: K) -> Option<&K> {
        self.set.get(key)
    }

    /// Makes the key a member in place of the member that is equal to it, which it returns. It is
    /// then the last one of its slot. The cost is that of [`insert`](Self::insert). Where
    /// [`try_replace`](Self::try_replace) fails, this call panics or ends the process.
    ///
    /// ```
    /// let mut set = intmap_proved::IntSet::from([21u64]);
    /// assert_eq!((set.replace(21), set.replace(22)), (Some(21), None));
    /// assert_eq!(set.len(), 2);
    /// ```
    pub fn replace(&mut self, key: K) -> Option<K> {
        granted(self.try_replace(key))
    }

    /// The same as [`replace`](Self::replace), but it returns a failure.
    ///
    /// # Errors
    /// Those of [`try_insert`](Self::try_insert).
    ///
    /// Proved in part: a member is found by [`get`](IntSet::get), removed by
    /// [`remove`](IntSet::remove), and the key inserted by [`try_insert`](IntSet::try_insert).
    /// Their order is by hand.
    pub fn try_replace(&mut self, key: K) -> Result<Option<K>, Cause> {
        let replaced = self.get(key).copied();
        if replaced.is_some() {
            self.remove(key);
        }
        self.try_insert(key)?;
        Ok(replaced)
    }

    /// Removes the key, and returns whether it was a member. The last member of its slot takes its
    /// place. The others keep their order, and the capacity stays. The cost is *O*(*s*).
    ///
    /// ```
    /// let mut set = intmap_proved::IntSet::from([21u64]);
    /// assert!(set.remove(21));
    /// assert!(!set.remove(21));
    /// ```
    ///
    /// Proved of `IntSet::remove`: `value`, `state`, `absent`, `updates`, `len`.
    #[inline]
    pub fn remove(&mut self, key: K) -> bool {
        self.set.remove(key)
    }

    /// The same as [`remove`](Self::remove), but it returns `key` if it was a member.
    ///
    /// ```
    /// let mut set = intmap_proved::IntSet::from([21u64]);
    /// assert_eq!((set.take(21), set.take(21)), (Some(21), None));
    /// ```
    #[inline]
    pub fn take(&mut self, key: K) -> Option<K> {
        self.remove(key).then_some(key)
    }

    /// Returns the number of members. The cost is *O*(1).
    ///
    /// ```
    /// assert_eq!(intmap_proved::IntSet::from([21u64, 21]).len(), 1);
    /// ```
    ///
    /// Proved of `IntSet::len`: `value`.
    #[inline]
    pub fn len(&self) -> usize {
        self.set.len()
    }

    /// Returns whether there is no member. The cost is *O*(1).
    ///
    /// ```
    /// assert!(intmap_proved::IntSet::<u64>::new().is_empty());
    /// ```
    ///
    /// Proved of `IntSet::is_empty`: `value`.
    #[inline]
    pub fn is_empty(&self) -> bool {
        self.set.is_empty()
    }
}
