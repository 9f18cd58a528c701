//! The capacity and the load factor, room for a number of members, and memory that is given back.
use super::{Global, IntSet, Proved, guarded};
use crate::IntKey;
use crate::refusal::{Cause, granted};
use crate::room::{LEAST_SLOTS, slots_for, thousandths_of};

impl<K: IntKey> IntSet<K> {
    /// Returns the number of slots, a power of two from 2 to 2^63. The cost is *O*(1).
    ///
    /// ```
    /// assert_eq!(intmap_proved::IntSet::from([21u64]).capacity(), 2);
    /// ```
    ///
    /// Proved of `IntSet::capacity`: `value`.
    #[inline]
    pub fn capacity(&self) -> usize {
        self.set.capacity()
    }

    /// Returns an empty set with room for `members` members, as
    /// [`IntMap::with_room_for`](crate::IntMap::with_room_for) does for pairs. The cost is
    /// *O*(*c*). Where [`try_with_room_for`](Self::try_with_room_for) fails, this call panics or
    /// ends the process.
    ///
    /// ```
    /// assert_eq!(intmap_proved::IntSet::<u64>::with_room_for(1000).capacity(), 2048);
    /// ```
    #[must_use]
    pub fn with_room_for(members: usize) -> IntSet<K> {
        granted(Self::try_with_room_for(members))
    }

    /// The same as [`with_room_for`](Self::with_room_for), but it returns a failure.
    ///
    /// # Errors
    /// Those of [`IntMap::try_with_room_for`](crate::IntMap::try_with_room_for).
    ///
    /// Proved of `IntSet::with_room_for`: `state`, `capacity`, `room`, `too_large`.
    pub fn try_with_room_for(members: usize) -> Result<IntSet<K>, Cause> {
        Ok(IntSet { set: Proved::with_room_for(Global, members)? })
    }

    /// Makes the capacity at least the number of members plus `additional`, as
    /// [`IntMap::reserve`](crate::IntMap::reserve) does. The cost is *O*(*n* + *c*), or *O*(1) if
    /// the capacity stays. Where [`try_reserve`](Self::try_reserve) fails, this call panics or ends
    /// the process.
    ///
    /// ```
    /// let mut set = intmap_proved::IntSet::from([21u64]);
    /// set.reserve(4);
    /// assert_eq!(set.capacity(), 8);
    /// ```
    pub fn reserve(&mut self, additional: usize) {
        granted(self.try_reserve(additional))
    }

    /// The same as [`reserve`](Self::reserve), but it returns a failure.
    ///
    /// # Errors
    /// Those of [`IntMap::try_reserve`](crate::IntMap::try_reserve). The set then stays as it was.
    ///
    /// Proved of `IntSet::reserve`: `reserved`, `err`, `refused`, `updates`, `len`.
    pub fn try_reserve(&mut self, additional: usize) -> Result<(), Cause> {
        guarded!(&mut self.set, |set| set.reserve(additional))
    }

    /// Makes room for `additional` members more, as
    /// [`IntMap::reserve_pairs`](crate::IntMap::reserve_pairs) does for pairs. The cost is
    /// *O*(*n* + *c*), or *O*(1) if the capacity stays. Where
    /// [`try_reserve_members`](Self::try_reserve_members) fails, this call panics or ends the
    /// process.
    ///
    /// ```
    /// let mut set = intmap_proved::IntSet::from([21u64]);
    /// set.reserve_members(15);
    /// assert_eq!(set.capacity(), 32);
    /// ```
    pub fn reserve_members(&mut self, additional: usize) {
        granted(self.try_reserve_members(additional))
    }

    /// The same as [`reserve_members`](Self::reserve_members), but it returns a failure.
    ///
    /// # Errors
    /// Those of [`IntMap::try_reserve_pairs`](crate::IntMap::try_reserve_pairs). The set then stays
    /// as it was.
    ///
    /// Proved of `IntSet::reserve_members`: `reserved`, `room`, `err`, `refused`, `updates`, `len`.
    pub fn try_reserve_members(&mut self, additional: usize) -> Result<(), Cause> {
        guarded!(&mut self.set, |set| set.reserve_members(additional))
    }

    /// Makes room for `additional` insertions of any keys: the slots that
    /// [`reserve_members`](Self::reserve_members) makes, and memory for as many members that share
    /// a slot with another. The cost is *O*(*n* + *c*), or *O*(*n*) if the capacity stays.
    ///
    /// The next `additional` insertions of any keys then can't fail, and allocate nothing, as
    /// [`IntMap::reserve_insertions`](crate::IntMap::reserve_insertions) says. Of sets the same is
    /// proved and the same tested. Where
    /// [`try_reserve_insertions`](Self::try_reserve_insertions) fails, this call panics or ends the
    /// process.
    ///
    /// ```
    /// let mut set = intmap_proved::IntSet::from([0u64]);
    /// set.reserve_insertions(100);
    /// assert_eq!(set.capacity(), 128);
    /// // 100 keys of the slot of 0
    /// set.extend((1..=100).map(|key| key << 32));
    /// assert_eq!((set.capacity(), set.load()), (128, 1));
    /// ```
    pub fn reserve_insertions(&mut self, additional: usize) {
        granted(self.try_reserve_insertions(additional))
    }

    /// The same as [`reserve_insertions`](Self::reserve_insertions), but it returns a failure.
    ///
    /// # Errors
    /// Those of [`IntMap::try_reserve_insertions`](crate::IntMap::try_reserve_insertions). The set
    /// then stays as it was.
    ///
    /// Proved of `IntSet::reserve_insertions`: `reserved`, `room`, `any`, `err`, `too_large`,
    /// `updates`, `len`.
    pub fn try_reserve_insertions(&mut self, additional: usize) -> Result<(), Cause> {
        guarded!(&mut self.set, |set| set.reserve_insertions(additional))
    }

    /// Returns the load factor, as [`IntMap::get_load_factor`](crate::IntMap::get_load_factor) does.
    ///
    /// ```
    /// assert_eq!(intmap_proved::IntSet::<u64>::new().get_load_factor(), 0.909);
    /// ```
    ///
    /// Proved in part: it is [`load_factor_thousandths`](IntSet::load_factor_thousandths), divided
    /// by hand.
    pub fn get_load_factor(&self) -> f32 {
        self.load_factor_thousandths() as f32 / 1000.
    }

    /// Returns the load factor in thousandths. The cost is *O*(1).
    ///
    /// ```
    /// assert_eq!(intmap_proved::IntSet::<u64>::new().load_factor_thousandths(), 909);
    /// ```
    ///
    /// Proved in part: it is
    /// [`IntMap::load_factor_thousandths`](crate::IntMap::load_factor_thousandths), on the map from
    /// each member to `()`.
    pub fn load_factor_thousandths(&self) -> usize {
        self.set.load_factor_thousandths()
    }

    /// Sets the load factor, as [`IntMap::set_load_factor`](crate::IntMap::set_load_factor) does.
    /// What is proved of a set's capacity is proved for 0.909; the code that considers another load
    /// factor is the map's, where it is proved for all. Where
    /// [`try_set_load_factor`](Self::try_set_load_factor) fails, this call panics or ends the
    /// process.
    ///
    /// ```
    /// let mut set = intmap_proved::IntSet::from([21u64, 22]);
    /// set.set_load_factor(0.25);
    /// assert_eq!((set.get_load_factor(), set.capacity()), (0.25, 8));
    /// ```
    #[track_caller]
    pub fn set_load_factor(&mut self, load_factor: f32) {
        granted(self.try_set_load_factor(load_factor))
    }

    /// The same as [`set_load_factor`](Self::set_load_factor), but it returns a failure.
    ///
    /// # Errors
    /// Those of [`try_set_load_factor_thousandths`](Self::try_set_load_factor_thousandths).
    ///
    /// # Panics
    /// Where [the map's](crate::IntMap::set_load_factor) panics in a debug build.
    #[track_caller]
    pub fn try_set_load_factor(&mut self, load_factor: f32) -> Result<(), Cause> {
        self.try_set_load_factor_thousandths(thousandths_of(load_factor))
    }

    /// Sets the load factor in whole thousandths.
    ///
    /// # Errors
    /// Those of [the map's](crate::IntMap::try_set_load_factor_thousandths).
    ///
    /// Proved in part: it is the map's, on the map from each member to `()`.
    pub fn try_set_load_factor_thousandths(&mut self, thousandths: usize) -> Result<(), Cause> {
        guarded!(&mut self.set, |set| set.set_load_factor(thousandths))
    }

    /// Returns the number of slots that have a member. The cost is *O*(*c*), by 64 slots at a time.
    ///
    /// ```
    /// assert_eq!(intmap_proved::IntSet::from([0u64, 4]).load(), 1);
    /// ```
    ///
    /// Proved in part: it is [`IntMap::load`](crate::IntMap::load), on the map from each member to
    /// `()`.
    pub fn load(&self) -> u64 {
        self.set.load()
    }

    /// Makes the capacity the least power of two, from 2 on, in which the members meet the load
    /// factor, or leaves it if it is that. Order, cost and failures are those of
    /// [`shrink_to`](Self::shrink_to), and [`try_shrink_to_fit`](Self::try_shrink_to_fit) returns a
    /// failure.
    ///
    /// ```
    /// let mut set: intmap_proved::IntSet<u64> = (0..1000).collect();
    /// set.retain(|key| key < 3);
    /// set.shrink_to_fit();
    /// assert_eq!(set.capacity(), 4);
    /// ```
    pub fn shrink_to_fit(&mut self) {
        granted(self.try_shrink_to_fit())
    }

    /// The same as [`shrink_to_fit`](Self::shrink_to_fit), but it returns a failure.
    ///
    /// # Errors
    /// That of [`try_shrink_to`](Self::try_shrink_to).
    pub fn try_shrink_to_fit(&mut self) -> Result<(), Cause> {
        self.try_shrink_to(0)
    }

    /// Makes the capacity the least power of two, from 2 on, that is at least `min_capacity` and in
    /// which the members meet the load factor. A smaller capacity stays. The cost is *O*(*n s* +
    /// *c*), or *O*(1) if the capacity stays.
    ///
    /// The set then has the order of a new one of that capacity into which the members were
    /// inserted in iteration order. The load factor stays. For a while there are both sets. If the
    /// capacity stays, no memory is given back.
    ///
    /// Where [`try_shrink_to`](Self::try_shrink_to) fails, this call ends the process. If a key's
    /// `number` panics, the set stays as it was.
    ///
    /// ```
    /// let mut set = intmap_proved::IntSet::<u64>::with_capacity(1000);
    /// set.shrink_to(20);
    /// assert_eq!(set.capacity(), 32);
    /// ```
    pub fn shrink_to(&mut self, min_capacity: usize) {
        granted(self.try_shrink_to(min_capacity))
    }

    /// The same as [`shrink_to`](Self::shrink_to), but it returns a failure.
    ///
    /// # Errors
    /// [`Cause::Memory`] if an allocation fails. The set then stays as it was.
    ///
    /// Proved in part: the members are copied by [`iter`](IntSet::iter) and
    /// [`try_extend`](IntSet::try_extend) to a set that
    /// [`try_with_capacity`](IntSet::try_with_capacity) makes. The number of slots is computed by
    /// hand.
    pub fn try_shrink_to(&mut self, min_capacity: usize) -> Result<(), Cause> {
        let factor = self.load_factor_thousandths();
        let slots = slots_for(self.len(), factor).max(min_capacity).max(LEAST_SLOTS);
        if slots > self.capacity() / 2 {
            return Ok(());
        }
        let mut small = Self::try_with_capacity(slots)?;
        small.try_set_load_factor_thousandths(factor)?;
        small.try_extend(self.iter().copied())?;
        *self = small;
        Ok(())
    }
}
