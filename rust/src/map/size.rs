//! The sizes of a map, and the calls that make it larger.
use super::IntMap;
use crate::IntKey;
use crate::guard::guarded;
use crate::refusal::{Cause, granted};
use crate::room::thousandths_of;

impl<K: IntKey, V> IntMap<K, V> {
    /// Returns the number of pairs. The cost is *O*(1).
    ///
    /// ```
    /// assert_eq!(intmap_proved::IntMap::from([(21u64, 'a')]).len(), 1);
    /// ```
    ///
    /// Proved of `IntMap::len`: `value`.
    #[inline]
    pub fn len(&self) -> usize {
        self.map.len()
    }

    /// Returns whether there is no pair. The cost is *O*(1).
    ///
    /// ```
    /// assert!(intmap_proved::IntMap::<u64, char>::new().is_empty());
    /// ```
    ///
    /// Proved of `IntMap::is_empty`: `value`.
    #[inline]
    pub fn is_empty(&self) -> bool {
        self.map.is_empty()
    }

    /// Returns the number of slots, a power of two from 2 to 2^63. The cost is *O*(1).
    ///
    /// Unlike std's, it isn't the number of pairs for which there is room: it says which keys share
    /// a slot.
    ///
    /// ```
    /// let mut map = intmap_proved::IntMap::new();
    /// map.extend((0u64..4).map(|key| (key, 'a')));
    /// assert_eq!(map.capacity(), 8);
    /// ```
    ///
    /// Proved of `IntMap::capacity`: `value`.
    #[inline]
    pub fn capacity(&self) -> usize {
        self.map.capacity()
    }

    /// Makes the capacity the least power of two that is at least the number of pairs plus
    /// `additional`. A greater capacity stays. The pairs have the order of the new capacity, and
    /// those of a slot keep theirs. The cost is *O*(*n* + *c*), or *O*(1) if the capacity stays.
    ///
    /// The load factor isn't considered, so later insertions may still double the slots;
    /// [`reserve_pairs`](Self::reserve_pairs) considers it. Where
    /// [`try_reserve`](Self::try_reserve) fails, this call panics or ends the process.
    ///
    /// ```
    /// let mut map = intmap_proved::IntMap::from([(21u64, 'a')]);
    /// map.reserve(4);
    /// assert_eq!(map.capacity(), 8);
    /// ```
    pub fn reserve(&mut self, additional: usize) {
        granted(self.try_reserve(additional))
    }

    /// The same as [`reserve`](Self::reserve), but it returns a failure.
    ///
    /// # Errors
    /// [`Cause::TooLarge`] if the number of pairs plus `additional` is above 2^63, and otherwise
    /// [`Cause::Memory`] if an allocation fails. The map then stays as it was. It never fails if
    /// the capacity stays.
    ///
    /// ```
    /// use intmap_proved::{Cause, IntMap};
    ///
    /// let mut map = IntMap::from([(21u64, 'a')]);
    /// assert_eq!(map.try_reserve(1 << 63), Err(Cause::TooLarge));
    /// assert_eq!(map.try_reserve(1 << 62), Err(Cause::Memory));
    /// assert_eq!(map.capacity(), 2);
    /// ```
    ///
    /// Proved of `IntMap::reserve`: `reserved`, `err`, `refused`, `updates`, `len`.
    pub fn try_reserve(&mut self, additional: usize) -> Result<(), Cause> {
        guarded!(&mut self.map, |map| map.reserve(additional))
    }

    /// Returns the load factor: how many pairs there may be for each slot. It is 0.909 at first.
    /// The cost is *O*(1).
    ///
    /// An insertion checks it only if the pairs are then 4 to 7, 12 to 15, 20 to 23, and so on. In
    /// between there may be more.
    ///
    /// ```
    /// assert_eq!(intmap_proved::IntMap::<u64, char>::new().get_load_factor(), 0.909);
    /// ```
    ///
    /// Proved in part: it is [`load_factor_thousandths`](IntMap::load_factor_thousandths), divided
    /// by hand.
    pub fn get_load_factor(&self) -> f32 {
        self.load_factor_thousandths() as f32 / 1000.
    }

    /// Returns the load factor in thousandths, as the map has it. The cost is *O*(1).
    ///
    /// ```
    /// assert_eq!(intmap_proved::IntMap::<u64, char>::new().load_factor_thousandths(), 909);
    /// ```
    ///
    /// Proved of `IntMap::get_load_factor`: `value`.
    pub fn load_factor_thousandths(&self) -> usize {
        self.map.get_load_factor()
    }

    /// Sets the load factor, cut to thousandths, and doubles the slots until the pairs meet it.
    /// They have the order of the new capacity, and those of a slot keep theirs. The cost is
    /// *O*(*n* + *c*), or *O*(1) if the capacity stays.
    ///
    /// It is a share, not a percentage: 0.75 and not 75. A `NaN` is 0, and so is a negative number.
    /// Where [`try_set_load_factor`](Self::try_set_load_factor) fails, this call panics or ends the
    /// process.
    ///
    /// # Panics
    /// In a debug build, if `load_factor` is 10 or more, or a `NaN`.
    ///
    /// ```
    /// let mut map = intmap_proved::IntMap::from([(21u64, 'a'), (22, 'b')]);
    /// map.set_load_factor(0.25);
    /// assert_eq!((map.get_load_factor(), map.capacity()), (0.25, 8));
    /// ```
    #[track_caller]
    pub fn set_load_factor(&mut self, load_factor: f32) {
        granted(self.try_set_load_factor(load_factor))
    }

    /// The same as [`set_load_factor`](Self::set_load_factor), but it returns a failure.
    ///
    /// # Errors
    /// Those of [`try_set_load_factor_thousandths`](Self::try_set_load_factor_thousandths).
    ///
    /// # Panics
    /// Where [`set_load_factor`](Self::set_load_factor) panics in a debug build.
    #[track_caller]
    pub fn try_set_load_factor(&mut self, load_factor: f32) -> Result<(), Cause> {
        self.try_set_load_factor_thousandths(thousandths_of(load_factor))
    }

    /// Sets the load factor in whole thousandths, however large, as
    /// [`set_load_factor`](Self::set_load_factor) does and at its cost.
    ///
    /// # Errors
    /// [`Cause::TooLarge`] if the pairs don't meet it in 2^63 slots, and otherwise
    /// [`Cause::Memory`] if an allocation fails. The map then stays as it was, with its load
    /// factor. It never fails if the capacity stays.
    ///
    /// ```
    /// let mut map = intmap_proved::IntMap::from([(0u64, 'a'), (1, 'b'), (2, 'c')]);
    /// assert_eq!(map.try_set_load_factor_thousandths(100), Ok(()));
    /// assert_eq!(map.capacity(), 32);
    /// ```
    ///
    /// Proved of `IntMap::set_load_factor`: `set`, `err`, `refused`, `updates`, `len`.
    pub fn try_set_load_factor_thousandths(&mut self, thousandths: usize) -> Result<(), Cause> {
        guarded!(&mut self.map, |map| map.set_load_factor(thousandths))
    }

    /// Returns the number of slots that have a pair. The cost is *O*(*c*), by 64 slots at a time.
    ///
    /// ```
    /// assert_eq!(intmap_proved::IntMap::from([(0u64, 'a'), (4, 'b')]).load(), 1);
    /// ```
    ///
    /// Proved of `IntMap::load`: `value`.
    pub fn load(&self) -> u64 {
        self.map.load()
    }

    /// Returns how many pairs a slot has on average, in percent. The cost is *O*(1).
    ///
    /// ```
    /// let map = intmap_proved::IntMap::from([(0u64, 'a'), (4, 'b'), (8, 'c')]);
    /// assert_eq!(map.load_rate(), 75.);
    /// ```
    ///
    /// Proved in part: it is [`len`](IntMap::len) by [`capacity`](IntMap::capacity), divided by
    /// hand.
    pub fn load_rate(&self) -> f64 {
        self.len() as f64 / self.capacity() as f64 * 100.
    }

    /// Counts the pairs, and returns whether their number is [`len`](Self::len). It always is. The
    /// cost is *O*(*n* + *c*).
    ///
    /// ```
    /// assert!(intmap_proved::IntMap::from([(21u64, 'a')]).assert_count());
    /// ```
    ///
    /// Proved of `IntMap::assert_count`: `value`.
    pub fn assert_count(&self) -> bool {
        self.map.assert_count()
    }

    /// Returns a map from each number of pairs above 1 that a slot has, to the number of slots that
    /// have exactly that many. The numbers are inserted into a new map as they first appear. The
    /// cost is *O*(*n* + *c*). Where [`try_collisions`](Self::try_collisions) fails, this call ends
    /// the process.
    ///
    /// ```
    /// let map = intmap_proved::IntMap::from([(0u64, 'a'), (4, 'b'), (1, 'c')]);
    /// assert_eq!(format!("{:?}", map.collisions()), "{2: 1}");
    /// ```
    #[must_use]
    pub fn collisions(&self) -> IntMap<u64, u64> {
        granted(self.try_collisions())
    }

    /// The same as [`collisions`](Self::collisions), but it returns a failure.
    ///
    /// # Errors
    /// [`Cause::Memory`] if an allocation fails.
    ///
    /// Proved of `IntMap::collisions`: `sizes`, `bindings`, `len`, `memory`.
    pub fn try_collisions(&self) -> Result<IntMap<u64, u64>, Cause> {
        Ok(IntMap { map: self.map.collisions()? })
    }
}
