//! Entries of present keys.
use super::OccupiedEntry;
use crate::IntKey;
use core::fmt::{self, Debug, Formatter};

impl<'a, K: IntKey, V> OccupiedEntry<'a, K, V> {
    /// Returns a reference to the key in the map.
    ///
    /// Proved of `OccupiedEntry::key`: `value`.
    pub fn key(&self) -> &K {
        self.0.key()
    }

    /// Returns a reference to the value.
    ///
    /// ```
    /// use intmap_proved::{Entry, IntMap};
    ///
    /// let mut map = IntMap::from([(21u64, 'a')]);
    /// if let Entry::Occupied(entry) = map.entry(21) {
    ///     assert_eq!((entry.key(), entry.get()), (&21, &'a'));
    /// }
    /// ```
    ///
    /// Proved of `OccupiedEntry::get`: `value`.
    #[inline(always)]
    pub fn get(&self) -> &V {
        self.0.get()
    }

    /// Returns a mutable reference to the value, which can't outlive the entry.
    ///
    /// ```
    /// use intmap_proved::{Entry, IntMap};
    ///
    /// let mut map = IntMap::from([(21u64, 1)]);
    /// if let Entry::Occupied(mut entry) = map.entry(21) {
    ///     *entry.get_mut() += 1;
    ///     assert_eq!(entry.get(), &2);
    /// }
    /// ```
    ///
    /// Proved of `OccupiedEntry::get_mut`: `writes_back`, `value`, `updates`, `len`.
    #[inline(always)]
    pub fn get_mut(&mut self) -> &mut V {
        self.0.get_mut()
    }

    /// Returns a mutable reference to the value, for as long as the map is borrowed.
    ///
    /// ```
    /// use intmap_proved::{Entry, IntMap};
    ///
    /// let mut map = IntMap::from([(21u64, 1)]);
    /// let value = match map.entry(21) {
    ///     Entry::Occupied(entry) => entry.into_mut(),
    ///     Entry::Vacant(entry) => entry.insert(0),
    /// };
    /// *value += 1;
    /// assert_eq!(map[21], 2);
    /// ```
    ///
    /// Proved of `OccupiedEntry::into_mut`: `writes_back`, `value`, `updates`, `len`.
    #[inline(always)]
    pub fn into_mut(self) -> &'a mut V {
        self.0.into_mut()
    }

    /// Sets the value, and returns the old one. The pair keeps its place.
    ///
    /// ```
    /// use intmap_proved::{Entry, IntMap};
    ///
    /// let mut map = IntMap::from([(21u64, 'a')]);
    /// if let Entry::Occupied(mut entry) = map.entry(21) {
    ///     assert_eq!(entry.insert('b'), 'a');
    /// }
    /// assert_eq!(map[21], 'b');
    /// ```
    ///
    /// Proved of `OccupiedEntry::insert`: `old`, `written`, `updates`, `len`.
    #[inline(always)]
    pub fn insert(&mut self, value: V) -> V {
        self.0.insert(value)
    }

    /// Removes the pair as [`IntMap::remove`](crate::IntMap::remove) does, and returns the value.
    ///
    /// Proved of `OccupiedEntry::remove`: `value`, `state`, `updates`, `len`.
    #[inline(always)]
    pub fn remove(self) -> V {
        self.0.remove()
    }

    /// The same as [`remove`](Self::remove), but it returns the stored key beside the value.
    ///
    /// ```
    /// use intmap_proved::{Entry, IntMap};
    ///
    /// let mut map = IntMap::from([(21u64, 'a')]);
    /// if let Entry::Occupied(entry) = map.entry(21) {
    ///     assert_eq!(entry.remove_entry(), (21, 'a'));
    /// }
    /// ```
    ///
    /// Proved of `OccupiedEntry::remove_entry`: `key`, `value`, `state`, `updates`, `len`.
    #[inline(always)]
    pub fn remove_entry(self) -> (K, V) {
        self.0.remove_entry()
    }

    /// Removes the pair as [`remove`](Self::remove) does, and calls `f` with the value. If `f`
    /// returns `Ok`, returns what is in it.
    ///
    /// If `f` returns a value as its error, the key has that value, and the call returns `None`.
    /// The pair is then at the end of its slot, where an [`insert`](crate::IntMap::insert) of a
    /// present key leaves it. This allocates nothing, so a value that can't be moved to another
    /// place is not lost. The capacity stays. If `f` panics, the map is one without the pair.
    ///
    /// ```
    /// use intmap_proved::{Entry, IntMap};
    ///
    /// let mut from = IntMap::from([(21u64, String::from("a name"))]);
    /// let mut to = IntMap::new();
    /// if let Entry::Occupied(entry) = from.entry(21) {
    ///     let moved = entry.hand_over(|value| {
    ///         to.try_insert(21u64, value).map_err(|refused| refused.value)
    ///     });
    ///     assert_eq!(moved, Some(None), "there was memory, and 21 was new");
    /// }
    /// assert_eq!((from.len(), to[21].as_str()), (0, "a name"));
    /// ```
    ///
    /// Proved of `OccupiedEntry::hand_over`: `updates`, `state`, `others`, `len`, `capacity`,
    /// `factor`.
    pub fn hand_over<R, F: FnOnce(V) -> Result<R, V>>(self, f: F) -> Option<R> {
        self.0.hand_over(f)
    }
}

impl<K: IntKey + Debug, V: Debug> Debug for OccupiedEntry<'_, K, V> {
    fn fmt(&self, f: &mut Formatter<'_>) -> fmt::Result {
        let mut text = f.debug_struct("OccupiedEntry");
        text.field("key", self.key()).field("value", self.get()).finish()
    }
}
