//! Entries: a map with a key that was looked up once, to read, change, remove or insert its pair.
use crate::guard::guarded;
use crate::proved::map::entry as proved;
use crate::refusal::{Refused, granted};
use crate::{IntKey, IntMap};
use core::fmt::{self, Debug, Formatter};

mod made;
mod occupied;
mod vacant;

/// A map with a key that was looked up in it, made by [`IntMap::entry`]. No call of an entry
/// compares a key again, but a call goes past the pairs of the key's slot: it costs *O*(*s*) apart
/// from a closure. The insertion of an absent key costs what [`IntMap::insert`] does.
///
/// ```
/// let mut counts = intmap_proved::IntMap::new();
/// for key in [10u64, 30, 10] {
///     *counts.entry(key).or_insert(0) += 1;
/// }
/// assert_eq!((counts[10], counts[30]), (2, 1));
/// ```
pub enum Entry<'a, K, V> {
    /// The key is present.
    Occupied(OccupiedEntry<'a, K, V>),
    /// The key is absent.
    Vacant(VacantEntry<'a, K, V>),
}

/// A map with a key that is present in it. Each call costs *O*(*s*), apart from a closure.
///
/// ```
/// use intmap_proved::{Entry, IntMap};
///
/// let mut map = IntMap::from([(21u64, 'a')]);
/// if let Entry::Occupied(entry) = map.entry(21) {
///     assert_eq!(entry.remove(), 'a');
/// }
/// assert!(map.is_empty());
/// ```
pub struct OccupiedEntry<'a, K, V>(proved::OccupiedEntry<'a, K, V>);

/// A map with a key that is absent from it. An insertion costs what [`IntMap::insert`] does, any
/// other call *O*(1).
///
/// ```
/// use intmap_proved::{Entry, IntMap};
///
/// let mut map = IntMap::new();
/// if let Entry::Vacant(entry) = map.entry(21u64) {
///     entry.insert('a');
/// }
/// assert_eq!(map[21], 'a');
/// ```
pub struct VacantEntry<'a, K, V>(proved::VacantEntry<'a, K, V>);

impl<K: IntKey, V> IntMap<K, V> {
    /// Returns the entry of the key. It never fails, and the map stays as it is. The cost is
    /// *O*(*s*).
    ///
    /// ```
    /// use intmap_proved::{Entry, IntMap};
    ///
    /// let mut map = IntMap::from([(21u64, 'a')]);
    /// match map.entry(21) {
    ///     Entry::Occupied(mut entry) => assert_eq!(entry.insert('b'), 'a'),
    ///     Entry::Vacant(_) => unreachable!(),
    /// }
    /// assert_eq!(map[21], 'b');
    /// ```
    ///
    /// Proved of `IntMap::entry`: `state`, `key`, `occupied`.
    #[inline(always)]
    pub fn entry(&mut self, key: K) -> Entry<'_, K, V> {
        Entry::of(self.map.entry(key))
    }
}

impl<'a, K: IntKey, V> Entry<'a, K, V> {
    #[inline(always)]
    fn of(entry: proved::Entry<'a, K, V>) -> Entry<'a, K, V> {
        match entry {
            proved::Entry::Occupied(entry) => Entry::Occupied(OccupiedEntry(entry)),
            proved::Entry::Vacant(entry) => Entry::Vacant(VacantEntry(entry)),
        }
    }

    #[inline(always)]
    fn proved(self) -> proved::Entry<'a, K, V> {
        match self {
            Entry::Occupied(entry) => proved::Entry::Occupied(entry.0),
            Entry::Vacant(entry) => proved::Entry::Vacant(entry.0),
        }
    }

    /// Returns a reference to the key.
    ///
    /// ```
    /// assert_eq!(intmap_proved::IntMap::<u64, char>::new().entry(21).key(), &21);
    /// ```
    ///
    /// Proved in part: it hands over to [`OccupiedEntry::key`] or to [`VacantEntry::key`].
    pub fn key(&self) -> &K {
        match self {
            Entry::Occupied(entry) => entry.key(),
            Entry::Vacant(entry) => entry.key(),
        }
    }

    /// Calls `change` with the value if the key is present, and returns the entry. The pair keeps
    /// its place.
    ///
    /// ```
    /// let mut map = intmap_proved::IntMap::from([(21u64, 1)]);
    /// map.entry(21).and_modify(|value| *value += 1).or_insert(7);
    /// assert_eq!(map[21], 2);
    /// ```
    ///
    /// Proved of `Entry::and_modify`: `key`, `value`, `state`, `updates`, `len`.
    #[must_use = "without an insertion it does the same as `if let Some(value) = map.get_mut(key)`"]
    #[inline(always)]
    pub fn and_modify<F: FnOnce(&mut V)>(self, change: F) -> Entry<'a, K, V> {
        Entry::of(self.proved().and_modify(change))
    }

    /// Sets the value of the key, and returns its entry. A present key keeps its place, and its old
    /// value is dropped. The pair of an absent key is the last one of its slot. Where
    /// [`try_insert_entry`](Self::try_insert_entry) fails, this call panics or ends the process.
    ///
    /// ```
    /// let mut map = intmap_proved::IntMap::new();
    /// assert_eq!(map.entry(21u64).insert_entry('a').remove_entry(), (21, 'a'));
    /// ```
    #[inline(always)]
    pub fn insert_entry(self, value: V) -> OccupiedEntry<'a, K, V> {
        granted(self.try_insert_entry(value))
    }

    /// The same as [`insert_entry`](Self::insert_entry), but it returns a failure.
    ///
    /// # Errors
    /// Those of [`IntMap::try_insert`], with the value.
    ///
    /// Proved of `Entry::insert_entry`: `written`, `inserted`, `err`, `value_returned`, `absent`,
    /// `refused`, `succeeds`, `has_room`.
    #[inline(always)]
    pub fn try_insert_entry(self, value: V) -> Result<OccupiedEntry<'a, K, V>, Refused<V>> {
        let (map, found) = self.proved().parted();
        let place = guarded!(&mut *map, |map| {
            map.entry_of(found).insert_entry(value).map(|entry| entry.place())
        })?;
        Ok(OccupiedEntry(map.entry_at(place)))
    }
}

impl<K: IntKey + Debug, V: Debug> Debug for Entry<'_, K, V> {
    fn fmt(&self, f: &mut Formatter<'_>) -> fmt::Result {
        match self {
            Entry::Occupied(entry) => f.debug_tuple("Entry").field(entry).finish(),
            Entry::Vacant(entry) => f.debug_tuple("Entry").field(entry).finish(),
        }
    }
}
