//! Insertions of a value if the key is absent.
use super::Entry;
use crate::IntKey;
use crate::refusal::Refused;

impl<'a, K: IntKey, V> Entry<'a, K, V> {
    /// Inserts `value` if the key is absent, and drops it if the key is present. Returns a mutable
    /// reference to the value of the key. It is [`or_insert_with`](Self::or_insert_with) of a closure
    /// that returns `value`. Where [`try_or_insert`](Self::try_or_insert) fails, this call panics or
    /// ends the process.
    ///
    /// ```
    /// let mut map = intmap_proved::IntMap::new();
    /// *map.entry(21u64).or_insert(1) += 1;
    /// assert_eq!(map[21], 2);
    /// ```
    #[inline(always)]
    pub fn or_insert(self, value: V) -> &'a mut V {
        self.or_insert_with(|| value)
    }

    /// The same as [`or_insert`](Self::or_insert), but it returns a failure, by
    /// [`try_or_insert_with`](Self::try_or_insert_with).
    ///
    /// # Errors
    /// Those of [`IntMap::try_insert`](crate::IntMap::try_insert), with the value, and only if the
    /// key is absent.
    ///
    /// ```
    /// use intmap_proved::{IntMap, Refused};
    ///
    /// let mut map = IntMap::new();
    /// *map.entry(21u64).try_or_insert(1)? += 1;
    /// assert_eq!(map[21], 2);
    /// # Ok::<(), Refused<i32>>(())
    /// ```
    #[inline(always)]
    pub fn try_or_insert(self, value: V) -> Result<&'a mut V, Refused<V>> {
        self.try_or_insert_with(|| value)
    }

    /// The same as [`or_insert`](Self::or_insert), with the value that `make` returns. `make` is
    /// called only if the key is absent. It is [`or_insert_with_key`](Self::or_insert_with_key) of a
    /// closure that leaves the key aside. [`try_or_insert_with`](Self::try_or_insert_with) returns a
    /// failure.
    ///
    /// ```
    /// let mut map = intmap_proved::IntMap::new();
    /// assert_eq!(map.entry(21u64).or_insert_with(|| "a".to_string()), "a");
    /// ```
    #[inline(always)]
    pub fn or_insert_with<F: FnOnce() -> V>(self, make: F) -> &'a mut V {
        self.or_insert_with_key(|_| make())
    }

    /// The same as [`or_insert_with`](Self::or_insert_with), but it returns a failure.
    ///
    /// # Errors
    /// Those of [`try_or_insert_with_key`](Self::try_or_insert_with_key).
    #[inline(always)]
    pub fn try_or_insert_with<F: FnOnce() -> V>(self, make: F) -> Result<&'a mut V, Refused<V>> {
        self.try_or_insert_with_key(|_| make())
    }

    /// The same as [`or_insert_with`](Self::or_insert_with), but `make` takes the key.
    /// [`try_or_insert_with_key`](Self::try_or_insert_with_key) returns a failure.
    ///
    /// ```
    /// let mut map = intmap_proved::IntMap::new();
    /// assert_eq!(map.entry(21u64).or_insert_with_key(|key| key * 2), &42);
    /// ```
    ///
    /// Proved in part: the value of a present key is that of
    /// [`OccupiedEntry::into_mut`](crate::OccupiedEntry::into_mut), and one that the closure made
    /// is inserted by [`VacantEntry::insert`](crate::VacantEntry::insert). The choice between the
    /// two, and the call of the closure, are by hand.
    #[inline(always)]
    pub fn or_insert_with_key<F: FnOnce(&K) -> V>(self, make: F) -> &'a mut V {
        match self {
            Entry::Occupied(entry) => entry.into_mut(),
            Entry::Vacant(entry) => {
                let value = make(entry.key());
                entry.insert(value)
            }
        }
    }

    /// The same as [`or_insert_with_key`](Self::or_insert_with_key), but it returns a failure.
    ///
    /// # Errors
    /// Those of [`IntMap::try_insert`](crate::IntMap::try_insert), with the value that was made.
    ///
    /// Proved in part: the value of a present key is lent by
    /// [`OccupiedEntry::into_mut`](crate::OccupiedEntry::into_mut), and one that the closure made
    /// is inserted by [`VacantEntry::try_insert`](crate::VacantEntry::try_insert). The choice
    /// between the two, and the call of the closure, are by hand.
    #[inline(always)]
    pub fn try_or_insert_with_key<F: FnOnce(&K) -> V>(
        self,
        make: F,
    ) -> Result<&'a mut V, Refused<V>> {
        match self {
            Entry::Occupied(entry) => Ok(entry.into_mut()),
            Entry::Vacant(entry) => {
                let value = make(entry.key());
                entry.try_insert(value)
            }
        }
    }

    /// The same as [`try_or_insert_with`](Self::try_or_insert_with), for a value that may fail to
    /// be made.
    ///
    /// # Errors
    /// That of `make` as it is, and if the insertion fails, what `From` makes of a [`Refused`]. The
    /// map then stays as it was.
    ///
    /// ```
    /// use std::error::Error;
    ///
    /// let mut map = intmap_proved::IntMap::<u64, u32>::new();
    /// let number = map.entry(21).or_try_insert_with(|| Ok::<u32, Box<dyn Error>>("7".parse()?))?;
    /// assert_eq!(number, &7);
    /// # Ok::<(), Box<dyn Error>>(())
    /// ```
    ///
    /// Proved in part: the value of a present key is lent by
    /// [`OccupiedEntry::into_mut`](crate::OccupiedEntry::into_mut), and one that the closure made
    /// is inserted by [`VacantEntry::try_insert`](crate::VacantEntry::try_insert). The choice
    /// between the two, and the call of the closure, are by hand.
    pub fn or_try_insert_with<E, F>(self, make: F) -> Result<&'a mut V, E>
    where
        E: From<Refused<V>>,
        F: FnOnce() -> Result<V, E>,
    {
        match self {
            Entry::Occupied(entry) => Ok(entry.into_mut()),
            Entry::Vacant(entry) => Ok(entry.try_insert(make()?)?),
        }
    }

    /// The same as [`or_insert`](Self::or_insert), with the default value of the type, which
    /// [`or_insert_with`](Self::or_insert_with) makes. [`try_or_default`](Self::try_or_default)
    /// returns a failure.
    ///
    /// ```
    /// let mut map = intmap_proved::IntMap::<u64, Vec<u8>>::new();
    /// map.entry(21).or_default().push(1);
    /// assert_eq!(map[21], [1]);
    /// ```
    #[inline(always)]
    pub fn or_default(self) -> &'a mut V
    where
        V: Default,
    {
        self.or_insert_with(V::default)
    }

    /// The same as [`or_default`](Self::or_default), but it returns a failure, by
    /// [`try_or_insert_with`](Self::try_or_insert_with).
    ///
    /// # Errors
    /// Those of [`try_or_insert`](Self::try_or_insert).
    #[inline(always)]
    pub fn try_or_default(self) -> Result<&'a mut V, Refused<V>>
    where
        V: Default,
    {
        self.try_or_insert_with(V::default)
    }
}
