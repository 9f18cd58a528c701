//! Entries of absent keys.
use super::{OccupiedEntry, VacantEntry};
use crate::IntKey;
use crate::guard::guarded;
use crate::refusal::{Refused, granted};
use core::fmt::{self, Debug, Formatter};

impl<'a, K: IntKey, V> VacantEntry<'a, K, V> {
    /// Returns a reference to the key.
    ///
    /// Proved of `VacantEntry::key`: `value`.
    pub fn key(&self) -> &K {
        self.0.key()
    }

    /// Returns the key, and leaves it absent.
    ///
    /// ```
    /// use intmap_proved::{Entry, IntMap};
    ///
    /// let mut map = IntMap::<u64, char>::new();
    /// if let Entry::Vacant(entry) = map.entry(21) {
    ///     assert_eq!(entry.key(), &21);
    ///     assert_eq!(entry.into_key(), 21);
    /// }
    /// ```
    ///
    /// Proved of `VacantEntry::into_key`: `value`, `state`.
    pub fn into_key(self) -> K {
        self.0.into_key()
    }

    /// Inserts the pair at the end of its slot, and returns a mutable reference to the value. Where
    /// [`try_insert`](Self::try_insert) fails, this call panics or ends the process.
    ///
    /// ```
    /// use intmap_proved::{Entry, IntMap};
    ///
    /// let mut map = IntMap::new();
    /// if let Entry::Vacant(entry) = map.entry(21u64) {
    ///     *entry.insert(1) += 1;
    /// }
    /// assert_eq!(map[21], 2);
    /// ```
    ///
    /// Proved in part: a slot that holds no pair is filled by the calls by which `insert` of a map
    /// fills one. Otherwise the pair is inserted by `try_insert`. The choice between the two is by
    /// hand.
    #[inline(always)]
    pub fn insert(self, value: V) -> &'a mut V {
        match self.0.insert_first(value) {
            Ok(value) => value,
            Err((entry, value)) => VacantEntry(entry).insert_rest(value),
        }
    }

    /// Inserts a pair whose slot holds another, or with which the map grows.
    #[cold]
    #[inline(never)]
    fn insert_rest(self, value: V) -> &'a mut V {
        granted(self.try_insert(value))
    }

    /// The same as [`insert`](Self::insert), but it returns a failure.
    ///
    /// # Errors
    /// Those of [`IntMap::try_insert`](crate::IntMap::try_insert), with the value.
    ///
    /// Proved in part: it is [`try_insert_entry`](VacantEntry::try_insert_entry), and then
    /// [`into_mut`](OccupiedEntry::into_mut) of the entry.
    #[inline(always)]
    pub fn try_insert(self, value: V) -> Result<&'a mut V, Refused<V>> {
        Ok(self.try_insert_entry(value)?.into_mut())
    }

    /// Inserts the pair as [`insert`](Self::insert) does, and returns the entry of the key, which
    /// is then present. Where [`try_insert_entry`](Self::try_insert_entry) fails, this call panics
    /// or ends the process.
    ///
    /// ```
    /// use intmap_proved::{Entry, IntMap};
    ///
    /// let mut map = IntMap::new();
    /// if let Entry::Vacant(entry) = map.entry(21u64) {
    ///     assert_eq!(entry.insert_entry('a').get(), &'a');
    /// }
    /// ```
    #[inline(always)]
    pub fn insert_entry(self, value: V) -> OccupiedEntry<'a, K, V> {
        granted(self.try_insert_entry(value))
    }

    /// The same as [`insert_entry`](Self::insert_entry), but it returns a failure.
    ///
    /// # Errors
    /// Those of [`IntMap::try_insert`](crate::IntMap::try_insert), with the value.
    ///
    /// Proved of `VacantEntry::insert_entry`: `written`, `absent`, `inserted`, `err`,
    /// `value_returned`, `refused`, `succeeds`, `has_room`.
    #[inline(always)]
    pub fn try_insert_entry(self, value: V) -> Result<OccupiedEntry<'a, K, V>, Refused<V>> {
        let (map, key, slot) = self.0.parted();
        let place = guarded!(&mut *map, |map| {
            map.vacant_entry(key, slot).insert_entry(value).map(|entry| entry.place())
        })?;
        Ok(OccupiedEntry(map.entry_at(place)))
    }
}

impl<K: IntKey + Debug, V> Debug for VacantEntry<'_, K, V> {
    fn fmt(&self, f: &mut Formatter<'_>) -> fmt::Result {
        f.debug_tuple("VacantEntry").field(self.key()).finish()
    }
}
