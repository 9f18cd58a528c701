//! Calls on many pairs.
use super::IntMap;
use crate::IntKey;
use crate::guard::guarded;
use crate::iter::{Drain, ExtractIf};
use crate::memory::alloc::Global;
use crate::proved::map::IntMap as Proved;
use crate::refusal::{Cause, RefusedPair};

impl<K: IntKey, V> IntMap<K, V> {
    /// Calls `keep` once for each pair, in iteration order, and removes the pairs for which it
    /// returns `false`. It doesn't allocate. The cost is *O*(*n* + *c*).
    ///
    /// The other pairs keep their order, and the capacity and the load factor stay. Unlike std's,
    /// `keep` takes the key by value and can't change the value: [`retain_mut`](Self::retain_mut)
    /// can. If `keep` or the drop of a value panics, the map stays whole, and the pairs that
    /// weren't reached stay in it.
    ///
    /// ```
    /// let mut map = intmap_proved::IntMap::from([(0u64, 'a'), (4, 'b'), (8, 'c')]);
    /// map.retain(|key, _| key > 0);
    /// assert_eq!(format!("{map:?}"), "{4: 'b', 8: 'c'}");
    /// ```
    ///
    /// Proved of `IntMap::retain`: `by_pair`, `by_key`, `filtered`, `pairs`, `state`, `updates`,
    /// `len`.
    pub fn retain<F: FnMut(K, &V) -> bool>(&mut self, keep: F) {
        guarded!(&mut self.map, |map| map.retain(keep))
    }

    /// The same as [`retain`](Self::retain), at the same cost, but `keep` may change each value
    /// that it sees. Values are dropped in iteration order.
    ///
    /// Its code is by hand, and tested. [`extract_if`](Self::extract_if) of the opposite is proved,
    /// and leaves the same map if it goes to its end. It took 1.3 to 2.3 times as long with 1,000
    /// and 20,000 keys, dense and random, and far longer where thousands of keys shared a slot.
    ///
    /// ```
    /// let mut lives = intmap_proved::IntMap::from([(0u64, 1), (1, 2)]);
    /// lives.retain_mut(|_, left| {
    ///     *left -= 1;
    ///     *left > 0
    /// });
    /// assert_eq!(format!("{lives:?}"), "{1: 1}");
    /// ```
    pub fn retain_mut<F: FnMut(K, &mut V) -> bool>(&mut self, mut keep: F) {
        guarded!(&mut self.map, |map| map.retain_mut(&mut keep))
    }

    /// Removes all pairs. The capacity, the load factor and the memory stay. Values are dropped in
    /// iteration order, unlike by the drop of a map, which drops the first value of each slot before
    /// all others. If the drop of a value panics, the map stays whole, without the pairs up to that
    /// one. The cost is *O*(*n* + *c*).
    ///
    /// ```
    /// let mut map = intmap_proved::IntMap::from([(21u64, 'a')]);
    /// map.clear();
    /// assert_eq!((map.len(), map.capacity()), (0, 2));
    /// ```
    ///
    /// Proved of `IntMap::clear`: `state`, `updates`, `len`.
    pub fn clear(&mut self) {
        guarded!(&mut self.map, |map| map.clear())
    }

    /// Returns an iterator that removes one pair at each step and returns it, in iteration order.
    /// Pairs that it didn't return stay in the map, where std's `drain` removes them as it is
    /// dropped. For what std's does, write [`map.clear()`](Self::clear) behind a loop that may end
    /// early, or in place of `map.drain();`.
    ///
    /// The pairs that stay keep their order, also if the iterator is forgotten. The capacity and the
    /// load factor stay. All steps together cost *O*(*n* + *c*), however many keys share a slot.
    ///
    /// ```
    /// let mut map = intmap_proved::IntMap::from([(0u64, 'a'), (4, 'b'), (8, 'c')]);
    /// assert_eq!(map.drain().next(), Some((0, 'a')));
    /// assert_eq!(format!("{map:?}"), "{4: 'b', 8: 'c'}");
    /// // empty, as std's `drain` leaves it
    /// map.clear();
    /// assert_eq!((map.len(), map.capacity()), (0, 4));
    /// ```
    ///
    /// Proved of `IntMap::drain`: `state`, `next_gives`.
    #[must_use = "a drain removes one pair at each step, so `drain();` removes none: take `clear`"]
    pub fn drain(&mut self) -> Drain<'_, K, V> {
        Drain { left: self.len(), inner: self.map.drain() }
    }

    /// Returns an iterator that removes the pairs for which `pick` returns `true`, one at each
    /// step, and returns them, in iteration order.
    ///
    /// `pick` may change each value that it sees. It is called once for each pair, and only as the
    /// iterator goes on. If the iterator is dropped early or forgotten, the pairs that it didn't
    /// reach stay as they are. The pairs that stay keep their order, and so do the capacity and the
    /// load factor. All steps together cost *O*(*n s* + *c*) beside the calls of `pick`.
    /// [`retain`](Self::retain) costs *O*(*n* + *c*), however many keys share a slot.
    ///
    /// ```
    /// let mut map = intmap_proved::IntMap::from([(0u64, 10), (1, 20), (2, 30)]);
    /// let large: Vec<_> = map.extract_if(|_, value| *value > 15).collect();
    /// assert_eq!((large, map.len()), (vec![(1, 20), (2, 30)], 1));
    /// ```
    ///
    /// Proved of `IntMap::extract_if`: `state`, `test`, `kept`, `left`, `next_gives`.
    pub fn extract_if<F: FnMut(K, &mut V) -> bool>(&mut self, pick: F) -> ExtractIf<'_, K, V, F> {
        ExtractIf { inner: self.map.extract_if(pick) }
    }

    /// Calls `change` once for each pair, in iteration order. All keys stay, in their order. The
    /// cost is *O*(*n* + *c*).
    ///
    /// It does what a loop over [`iter_mut`](Self::iter_mut) does. Its code is proved, that of
    /// `iter_mut` is tested.
    ///
    /// ```
    /// let mut map = intmap_proved::IntMap::from([(0u64, 10), (1, 20)]);
    /// map.for_each_mut(|key, value| *value += key);
    /// assert_eq!((map[0], map[1]), (10, 21));
    /// ```
    ///
    /// Proved of `IntMap::for_each_mut`: `mapped`, `by_pair`, `values`, `state`, `keys`, `updates`,
    /// `len`.
    pub fn for_each_mut<F: FnMut(K, &mut V)>(&mut self, change: F) {
        self.map.for_each_mut(change);
    }

    /// Inserts each pair in turn, as [`insert`](Self::insert) does and at its cost, up to the first
    /// one that fails. The pairs before that one stay in the map, and the rest of the iterator is
    /// dropped. Pass `iterator.by_ref()` to keep the rest.
    ///
    /// # Errors
    /// That of [`try_insert`](Self::try_insert), with the pair and the number of pairs before it.
    ///
    /// ```
    /// use intmap_proved::{IntMap, RefusedPair};
    ///
    /// let mut map = IntMap::new();
    /// let pairs = [(21u64, 'a'), (22, 'b')];
    /// if let Err(RefusedPair { key, applied, cause, .. }) = map.try_extend(pairs) {
    ///     eprintln!("{key} came after {applied} others: {cause}");
    /// }
    /// assert_eq!(map.len(), 2);
    /// ```
    ///
    /// Proved of `IntMap::extend`: `extends`, `runs`, `len`, `has_room`, `stops`.
    pub fn try_extend<I>(&mut self, pairs: I) -> Result<(), RefusedPair<K, V>>
    where
        I: IntoIterator<Item = (K, V)>,
    {
        guarded!(&mut self.map, |map| map.extend(pairs.into_iter()))
    }

    /// The same as [`from_iter`](FromIterator::from_iter), but it returns a failure.
    ///
    /// # Errors
    /// That of [`try_with_capacity`](Self::try_with_capacity) or [`try_insert`](Self::try_insert),
    /// without the pairs, which are dropped.
    ///
    /// Proved of `IntMap::from_iter`: `collects`, `runs`, `len`.
    pub fn try_from_iter<I>(pairs: I) -> Result<IntMap<K, V>, Cause>
    where
        I: IntoIterator<Item = (K, V)>,
    {
        Ok(IntMap { map: Proved::from_iter(Global, pairs.into_iter())? })
    }
}

impl<K: IntKey, V: Clone> IntMap<K, V> {
    /// The same as [`clone`](Clone::clone), but it returns a failure.
    ///
    /// # Errors
    /// [`Cause::Memory`] if an allocation of the map fails. What the clone of a value allocates is
    /// handled by the value's type.
    ///
    /// Proved of `IntMap::clone`: `clone`, `keys`, `values`, `len`, `memory`.
    pub fn try_clone(&self) -> Result<IntMap<K, V>, Cause> {
        Ok(IntMap { map: self.map.clone()? })
    }
}
