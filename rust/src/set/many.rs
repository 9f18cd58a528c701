//! Calls on many members.
use super::{Cause, Drain, ExtractIf, Global, IntKey, IntSet, Iter, Proved, guarded};
use crate::proved::table::table::Progress;
use crate::refusal::RefusedPair;

impl<K: IntKey> IntSet<K> {
    /// Returns an iterator over the members, in iteration order. It doesn't allocate. All steps
    /// together cost *O*(*n* + *c*).
    ///
    /// ```
    /// let set = intmap_proved::IntSet::from([0u64, 1]);
    /// assert_eq!(set.iter().collect::<Vec<_>>(), [&0, &1]);
    /// ```
    ///
    /// Proved of `IntSet::iter`: `walk`, `runs`.
    #[inline]
    pub fn iter(&self) -> Iter<'_, K> {
        Iter { left: self.len(), inner: self.set.iter() }
    }

    /// Calls `keep` once for each member, in iteration order, and removes the members for which it
    /// returns `false`. The cost is *O*(*n* + *c*).
    ///
    /// The others keep their order, and the capacity and the load factor stay. If `keep` panics,
    /// the set stays whole, with the members that weren't reached.
    ///
    /// ```
    /// let mut set = intmap_proved::IntSet::from([0u64, 1, 2]);
    /// set.retain(|key| key > 0);
    /// assert_eq!(set.len(), 2);
    /// ```
    ///
    /// Proved of `IntSet::retain`: `by_key`, `filtered`, `keys`, `state`, `updates`, `len`.
    pub fn retain<F: FnMut(K) -> bool>(&mut self, keep: F) {
        guarded!(&mut self.set, |set| set.retain(keep))
    }

    /// Removes all members. The capacity, the load factor and the memory stay. The cost is
    /// *O*(*n* + *c*).
    ///
    /// ```
    /// let mut set = intmap_proved::IntSet::from([21u64]);
    /// set.clear();
    /// assert_eq!((set.len(), set.capacity()), (0, 2));
    /// ```
    ///
    /// Proved of `IntSet::clear`: `state`, `updates`, `len`.
    pub fn clear(&mut self) {
        self.set.clear();
    }

    /// Returns an iterator that removes one member at each step and returns it, in iteration order.
    /// Members that it didn't return stay in the set, in their order, where std's `drain` removes
    /// them as it is dropped. For what std's does, write [`set.clear()`](Self::clear) behind a loop
    /// that may end early, or in place of `set.drain();`.
    ///
    /// The capacity and the load factor stay. All steps together cost *O*(*n* + *c*).
    ///
    /// ```
    /// let mut set = intmap_proved::IntSet::from([0u64, 1]);
    /// assert_eq!((set.drain().next(), set.len()), (Some(0), 1));
    /// ```
    ///
    /// Proved of `IntSet::drain`: `state`, `next_gives`.
    #[must_use = "a drain removes one member at each step, so `drain();` removes none: take `clear`"]
    pub fn drain(&mut self) -> Drain<'_, K> {
        Drain { left: self.len(), inner: self.set.drain() }
    }

    /// Returns an iterator that removes the members for which `pick` returns `true`, one at each
    /// step, and returns them, in iteration order.
    ///
    /// `pick` is called once for each member, and only as the iterator goes on. If the iterator is
    /// dropped early or forgotten, the members that it didn't reach stay. All steps together cost
    /// *O*(*n s* + *c*) beside the calls of `pick`; [`retain`](Self::retain) costs *O*(*n* + *c*).
    ///
    /// ```
    /// let mut set = intmap_proved::IntSet::from([0u64, 1, 2]);
    /// assert_eq!(set.extract_if(|key| key > 0).collect::<Vec<_>>(), [1, 2]);
    /// assert_eq!(set.len(), 1);
    /// ```
    ///
    /// Proved in part: each step is the proved one of `IntMap::extract_if`, on the map from each
    /// member to `()`.
    pub fn extract_if<F: FnMut(K) -> bool>(&mut self, pick: F) -> ExtractIf<'_, K, F> {
        ExtractIf { set: &mut self.set, at: Progress::start(), pick }
    }

    /// Inserts each key in turn, as [`insert`](Self::insert) does and at its cost, up to the first
    /// one that fails. The keys before that one stay members, and the rest of the iterator is
    /// dropped. Pass `iterator.by_ref()` to keep the rest.
    ///
    /// # Errors
    /// That of [`try_insert`](Self::try_insert), with the key, `()` as its value, and the number of
    /// keys before it.
    ///
    /// ```
    /// use intmap_proved::{IntSet, RefusedPair};
    ///
    /// let mut set = IntSet::new();
    /// set.try_extend([21u64, 22])?;
    /// assert_eq!(set.len(), 2);
    /// # Ok::<(), RefusedPair<u64, ()>>(())
    /// ```
    ///
    /// Proved of `IntSet::extend`: `extends`, `runs`, `len`, `has_room`, `stops`.
    pub fn try_extend<I>(&mut self, keys: I) -> Result<(), RefusedPair<K, ()>>
    where
        I: IntoIterator<Item = K>,
    {
        guarded!(&mut self.set, |set| set.extend(keys.into_iter()))
    }

    /// The same as [`from_iter`](FromIterator::from_iter), but it returns a failure.
    ///
    /// # Errors
    /// That of [`try_with_capacity`](Self::try_with_capacity) or [`try_insert`](Self::try_insert).
    ///
    /// Proved of `IntSet::from_iter`: `collects`, `runs`, `len`.
    pub fn try_from_iter<I: IntoIterator<Item = K>>(keys: I) -> Result<IntSet<K>, Cause> {
        Ok(IntSet { set: Proved::from_iter(Global, keys.into_iter())? })
    }

    /// The same as [`clone`](Clone::clone), but it returns a failure.
    ///
    /// # Errors
    /// [`Cause::Memory`] if an allocation fails.
    ///
    /// Proved of `IntSet::clone`: `clone`, `len`, `memory`.
    pub fn try_clone(&self) -> Result<IntSet<K>, Cause> {
        Ok(IntSet { set: self.set.clone()? })
    }
}
