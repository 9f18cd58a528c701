//! Room for a number of pairs, and memory that is given back.
use super::IntMap;
use crate::IntKey;
use crate::guard::guarded;
use crate::memory::alloc::Global;
use crate::proved::map::IntMap as Proved;
use crate::refusal::{Cause, Refused, granted};
use crate::room::{LEAST_SLOTS, slots_for};

impl<K: IntKey, V> IntMap<K, V> {
    /// Returns an empty map with room for `pairs` pairs: the capacity is the least power of two,
    /// from 2 on, in which they meet the load factor of a new map, 0.909. The cost is *O*(*c*).
    ///
    /// Insertions of `pairs` keys then add no slots. Keys that share a slot still allocate:
    /// [`reserve_insertions`](Self::reserve_insertions) makes room for them too. All slots are
    /// written at once. Where [`try_with_room_for`](Self::try_with_room_for) fails, this call
    /// panics or ends the process.
    ///
    /// ```
    /// let mut map = intmap_proved::IntMap::with_room_for(1000);
    /// assert_eq!(map.capacity(), 2048);
    /// map.extend((0u64..1000).map(|key| (key, 'a')));
    /// assert_eq!(map.capacity(), 2048);
    /// ```
    #[must_use]
    pub fn with_room_for(pairs: usize) -> IntMap<K, V> {
        granted(Self::try_with_room_for(pairs))
    }

    /// The same as [`with_room_for`](Self::with_room_for), but it returns a failure.
    ///
    /// # Errors
    /// [`Cause::TooLarge`] if more than 2^63 slots are needed, and otherwise [`Cause::Memory`] if
    /// an allocation fails.
    ///
    /// Proved of `IntMap::with_room_for`: `state`, `capacity`, `room`, `too_large`.
    pub fn try_with_room_for(pairs: usize) -> Result<IntMap<K, V>, Cause> {
        Ok(IntMap { map: Proved::with_room_for(Global, pairs)? })
    }

    /// Makes room for `additional` pairs more: the capacity doubles until the present pairs and
    /// `additional` more meet the load factor. If they meet it already, the capacity stays. The
    /// cost is *O*(*n* + *c*), or *O*(1) if the capacity stays.
    ///
    /// Insertions of `additional` new keys then add no slots. If the numbers of all keys, present
    /// and new, lie among as many consecutive numbers as there are slots, no two keys share a slot,
    /// and it is proved that these insertions can't fail. Keys that share a slot still allocate:
    /// [`reserve_insertions`](Self::reserve_insertions) makes room for them too. Where
    /// [`try_reserve_pairs`](Self::try_reserve_pairs) fails, this call panics or ends the process.
    ///
    /// ```
    /// let mut map = intmap_proved::IntMap::from([(21u64, 'a')]);
    /// map.reserve_pairs(15);
    /// assert_eq!(map.capacity(), 32);
    /// ```
    pub fn reserve_pairs(&mut self, additional: usize) {
        granted(self.try_reserve_pairs(additional))
    }

    /// The same as [`reserve_pairs`](Self::reserve_pairs), but it returns a failure.
    ///
    /// # Errors
    /// [`Cause::TooLarge`] if there would be more than 2^64 - 1 pairs or more than 2^63 slots are
    /// needed, and otherwise [`Cause::Memory`] if an allocation fails. The map then stays as it
    /// was. If the capacity stays, it allocates nothing.
    ///
    /// Proved of `IntMap::reserve_pairs`: `reserved`, `room`, `err`, `refused`, `updates`, `len`.
    pub fn try_reserve_pairs(&mut self, additional: usize) -> Result<(), Cause> {
        guarded!(&mut self.map, |map| map.reserve_pairs(additional))
    }

    /// Makes room for `additional` insertions of any keys: the slots that
    /// [`reserve_pairs`](Self::reserve_pairs) makes, and memory for as many pairs that share a slot
    /// with another. The cost is *O*(*n* + *c*), or *O*(*n*) if the capacity stays.
    ///
    /// The next `additional` insertions of any keys then can't fail, and allocate nothing. This
    /// holds until a call other than an insertion, a removal or a look-up changes the map. That they
    /// can't fail is proved, by `any` of this call, `has_room` of the insertions and the law
    /// `insertions_leave_room`. That they allocate nothing is tested. Where
    /// [`try_reserve_insertions`](Self::try_reserve_insertions) fails, this call panics or ends the
    /// process.
    ///
    /// ```
    /// let mut map = intmap_proved::IntMap::from([(0u64, 'a')]);
    /// map.reserve_insertions(100);
    /// assert_eq!(map.capacity(), 128);
    /// // 100 keys of the slot of 0
    /// map.extend((1..=100).map(|key| (key << 32, 'b')));
    /// assert_eq!((map.capacity(), map.load()), (128, 1));
    /// ```
    pub fn reserve_insertions(&mut self, additional: usize) {
        granted(self.try_reserve_insertions(additional))
    }

    /// The same as [`reserve_insertions`](Self::reserve_insertions), but it returns a failure.
    ///
    /// # Errors
    /// [`Cause::TooLarge`] if there would be more than 2^64 - 1 pairs or more than 2^63 slots are
    /// needed, and otherwise [`Cause::Memory`] if an allocation fails. The map then stays as it
    /// was.
    ///
    /// ```
    /// use intmap_proved::{Cause, IntMap};
    ///
    /// let mut map = IntMap::from([(21u64, 'a')]);
    /// assert_eq!(map.try_reserve_insertions(usize::MAX), Err(Cause::TooLarge));
    /// assert_eq!(map.try_reserve_insertions(1 << 60), Err(Cause::Memory));
    /// assert_eq!(map.capacity(), 2);
    /// ```
    ///
    /// Proved of `IntMap::reserve_insertions`: `reserved`, `room`, `any`, `err`, `too_large`,
    /// `updates`, `len`.
    pub fn try_reserve_insertions(&mut self, additional: usize) -> Result<(), Cause> {
        guarded!(&mut self.map, |map| map.reserve_insertions(additional))
    }

    /// Makes the capacity the least power of two, from 2 on, in which the pairs meet the load
    /// factor, or leaves it if it is that. Order, memory, cost and failures are those of
    /// [`shrink_to`](Self::shrink_to), and [`try_shrink_to_fit`](Self::try_shrink_to_fit) returns a
    /// failure.
    ///
    /// ```
    /// let mut map: intmap_proved::IntMap<u64, u64> = (0..1000).zip(0..).collect();
    /// map.retain(|key, _| key < 3);
    /// map.shrink_to_fit();
    /// assert_eq!(map.capacity(), 4);
    /// ```
    pub fn shrink_to_fit(&mut self) {
        granted(self.try_shrink_to_fit())
    }

    /// The same as [`shrink_to_fit`](Self::shrink_to_fit), but it returns a failure.
    ///
    /// # Errors
    /// That of [`try_shrink_to`](Self::try_shrink_to).
    pub fn try_shrink_to_fit(&mut self) -> Result<(), Cause> {
        self.try_shrink_to(0)
    }

    /// Makes the capacity the least power of two, from 2 on, that is at least `min_capacity` and in
    /// which the pairs meet the load factor. A smaller capacity stays. The cost is *O*(*n s* +
    /// *c*), or *O*(1) if the capacity stays.
    ///
    /// The map then has the order and the [nodes](IntMap#memory) of a new one of that capacity into
    /// which the pairs were inserted in iteration order. The load factor stays. For a while there
    /// are both maps. If the capacity stays, no memory is given back: unused nodes stay too, such as
    /// those of [`reserve_insertions`](Self::reserve_insertions). A [`clone`](Clone::clone) has no
    /// unused nodes.
    ///
    /// Where [`try_shrink_to`](Self::try_shrink_to) fails, this call ends the process. If a key's
    /// `number` panics, the map keeps the pairs that weren't moved yet, and the others are dropped.
    ///
    /// ```
    /// let mut map = intmap_proved::IntMap::<u64, char>::with_capacity(1000);
    /// map.extend([(2, 'a'), (4, 'b')]);
    /// assert_eq!((format!("{map:?}"), map.capacity()), ("{2: 'a', 4: 'b'}".into(), 1024));
    /// map.shrink_to(16);
    /// assert_eq!((format!("{map:?}"), map.capacity()), ("{4: 'b', 2: 'a'}".into(), 16));
    /// ```
    pub fn shrink_to(&mut self, min_capacity: usize) {
        granted(self.try_shrink_to(min_capacity))
    }

    /// The same as [`shrink_to`](Self::shrink_to), but it returns a failure.
    ///
    /// # Errors
    /// [`Cause::Memory`] if an allocation fails. The map then stays as it was, order and all.
    ///
    /// Proved in part: the pairs are moved by [`drain`](IntMap::drain) and
    /// [`try_insert`](IntMap::try_insert) to a map that
    /// [`try_with_capacity`](IntMap::try_with_capacity) makes. The number of slots is computed by
    /// hand, and the way back after a failure is by hand.
    pub fn try_shrink_to(&mut self, min_capacity: usize) -> Result<(), Cause> {
        let factor = self.load_factor_thousandths();
        let slots = slots_for(self.len(), factor).max(min_capacity).max(LEAST_SLOTS);
        if slots > self.capacity() / 2 { Ok(()) } else { self.move_to(slots, factor) }
    }

    /// Moves the pairs to a new map of `slots` slots, which takes the place of this one.
    fn move_to(&mut self, slots: usize, factor: usize) -> Result<(), Cause> {
        let mut small = IntMap::try_with_capacity(slots)?;
        small.try_set_load_factor_thousandths(factor)?;
        for (key, value) in self.drain() {
            if let Err(Refused { value, cause }) = small.try_insert(key, value) {
                self.take_back(small, key, value);
                return Err(cause);
            }
        }
        *self = small;
        Ok(())
    }

    /// Undoes moves to a smaller map, of which one failed at this pair. The pairs that weren't
    /// moved are those of its slot that were behind it, and those of later slots. The nodes that
    /// the moved pairs had are free, so no insertion allocates.
    fn take_back(&mut self, small: IntMap<K, V>, key: K, value: V) {
        let mask = self.capacity() as u64 - 1;
        let shares = |other: K| (other.number() ^ key.number()) & mask == 0;
        let behind = self.keys().filter(|other| shares(**other)).count();
        self.extend(small);
        self.insert(key, value);
        for _ in 0..behind {
            let first = self.extract_if(|other, _| shares(other)).next();
            self.extend(first);
        }
    }
}
