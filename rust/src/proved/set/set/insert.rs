//! New sets, the insertion of a key, and reservations.

use crate::memory::prelude::*;
use crate::proved::set::set::IntSet;
use crate::proved::map::{Cause, IntKey, IntMap};
use crate::memory::alloc::Allocator;

impl<K: IntKey, A: Allocator + Copy> IntSet<K, A> {
    /// An empty set of 4 slots, with a load factor of 909 thousandths. It allocates the slots and
    /// their bits. It fails only if an allocation fails, with [`Cause::Memory`].
    pub fn new(alloc: A) -> Result<IntSet<K, A>, Cause> {
        Ok(IntSet {
            map: IntMap::new(alloc)?,
        })
    }

    /// An empty set with a load factor of 909 thousandths. Its number of slots is the least power
    /// of two that is at least `capacity`, and at least 2. To make room for members, call
    /// [`with_room_for`](IntSet::with_room_for). It fails with [`Cause::TooLarge`] if and only if
    /// `capacity` is above 2^63, and otherwise with [`Cause::Memory`] if an allocation fails.
    pub fn with_capacity(alloc: A, capacity: usize) -> Result<IntSet<K, A>, Cause> {
        Ok(IntSet {
            map: IntMap::with_capacity(alloc, capacity)?,
        })
    }

    /// An empty set with room for `members` members, and a load factor of 909 thousandths. Its
    /// number of slots is the least power of two, from 2 on, in which so many members meet the load
    /// factor. It is what [`reserve_members`](IntSet::reserve_members) makes of two slots, but
    /// allocates the slots once.
    ///
    /// It fails with [`Cause::TooLarge`] if and only if no capacity up to 2^63 meets the load
    /// factor, and otherwise with [`Cause::Memory`] if an allocation fails.
    pub fn with_room_for(alloc: A, members: usize) -> Result<IntSet<K, A>, Cause> {
        Ok(IntSet {
            map: IntMap::with_room_for(alloc, members)?,
        })
    }

    /// Makes the key a member, and returns whether it is new. If it is a member already, only the
    /// count of compared keys changes. A new member is put at the end of its slot, and the table
    /// grows as the table of a map does at a new key.
    ///
    /// The insertion of a member never fails. The insertion of a new key fails with
    /// [`Cause::TooLarge`] if and only if the set has 2^64 - 1 members or growth needs more than
    /// 2^63 slots, and otherwise with [`Cause::Memory`] if an allocation fails. It allocates
    /// nothing if the capacity stays and the slot holds no member. A failed call leaves the set as
    /// it was. Only the count of compared keys, which takes no memory, changes.
    #[inline(always)]
    pub fn insert(&mut self, key: K) -> Result<bool, Cause> {
        Ok(self.map.insert_checked(key, ())?)
    }

    /// Makes the capacity at least the least power of two that is no less than the length plus
    /// `additional`. If the capacity is greater already, it stays. The load factor isn't
    /// considered, so later insertions may still grow the table.
    ///
    /// It fails with [`Cause::TooLarge`] if and only if the length plus `additional` is above 2^63,
    /// and otherwise with [`Cause::Memory`] if an allocation fails. It never fails if the capacity
    /// is at least that sum. A failed call leaves the set as it was. Both counts stay.
    pub fn reserve(&mut self, additional: usize) -> Result<(), Cause> {
        self.map.reserve(additional)
    }

    /// Makes room for `additional` members more: at once, whatever the length is, the capacity
    /// becomes the least of itself and its doublings at which as many members more meet the load
    /// factor. The next `additional` insertions of new keys then leave the capacity.
    ///
    /// Keys that follow one another, such as ids, are then inserted without failure: each has a
    /// slot of its own, as long as they and the members lie within as many numbers in a row as
    /// there are slots. The insertion of a key whose slot holds a member may allocate, and fail:
    /// [`reserve_insertions`](IntSet::reserve_insertions) makes room for such keys too.
    ///
    /// It fails with [`Cause::TooLarge`] if and only if there would be more than 2^64 - 1 members,
    /// or no capacity up to 2^63 meets the load factor, and otherwise with [`Cause::Memory`] if an
    /// allocation fails. If the present capacity meets the load factor, it allocates nothing. A
    /// failed call leaves the set as it was. Both counts stay.
    pub fn reserve_members(&mut self, additional: usize) -> Result<(), Cause> {
        self.map.reserve_pairs(additional)
    }

    /// Makes room for `additional` insertions of any keys: the slots that
    /// [`reserve_members`](IntSet::reserve_members) makes, and memory for as many members that
    /// share a slot with another. The next `additional` insertions of new keys then allocate
    /// nothing, so none of them fails, as long as no call but insertions, removals and look-ups
    /// changes the set.
    ///
    /// It fails as [`reserve_members`](IntSet::reserve_members) does, and also, with
    /// [`Cause::Memory`], if the memory for members that share a slot is refused. A failed call
    /// leaves the set as it was.
    ///
    /// Contracts say so by `HasRoom` of the map that the set stands for: an insertion into a set
    /// that has room for a member doesn't fail (its clause `has_room`), and
    /// [`insertions_leave_room`](crate::proved::set::laws::insertions_leave_room) says what it leaves of the
    /// room.
    pub fn reserve_insertions(&mut self, additional: usize) -> Result<(), Cause> {
        self.map.reserve_insertions(additional)
    }
}
