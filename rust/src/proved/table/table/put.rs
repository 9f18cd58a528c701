//! A pair is put into the slot of its key. What lies at the first place is looked at before the
//! rest.

use crate::memory::prelude::*;
use crate::proved::table::key::IntKey;
use crate::proved::table::steps::Steps;
use crate::proved::table::table::Table;
use crate::proved::table::table::stored::{Sought, Stored};
use crate::memory::alloc::Allocator;

impl<K: IntKey, X, A: Allocator> Table<K, X, A> {
    /// The slot of the key.
    #[inline(always)]
    pub fn slot_of(&self, key: &Sought<K>) -> usize {
        self.index_of(key)
    }

    /// Whether a slot holds no pair.
    #[inline(always)]
    pub fn is_vacant(&self, slot: usize) -> bool {
        self.slots.is_vacant(slot)
    }

    /// Puts the pair of a key into its slot, which holds none. It allocates nothing.
    #[inline(always)]
    pub fn fill(&mut self, slot: usize, key: Sought<K>, value: X) {
        self.slots.fill(slot, (Stored::new(key), value));
    }

    /// Whether the first pair of the key's slot has the key. If there is a first pair, its key is
    /// compared, which is one step.
    #[inline(always)]
    pub fn first_is(&self, slot: usize, key: &Sought<K>, steps: &mut Steps) -> bool {
        self.slots.first_is(slot, key, steps)
    }

    /// Removes the pair of a key, which is the first one of its slot. The last pair of the slot
    /// takes its place, and the pair of the key and this value is put last. It returns the old
    /// value, and allocates nothing.
    #[inline(always)]
    pub fn replace_first(&mut self, slot: usize, key: Sought<K>, value: X) -> X {
        let (_, old) = self.slots.replace_first(slot, (Stored::new(key), value));
        old
    }

    /// Puts the pair of a key and a value last in its slot, whose first pair, if there is one, has
    /// another key. If the key is present, the last pair of the slot takes the place of the old
    /// pair, and the old value is returned. An absent key is added only if `adds` is true. If it
    /// isn't added, or if an allocation fails, the value is returned and nothing changes. It
    /// compares keys from the second pair on, up to the one sought.
    #[inline(always)]
    pub fn put(
        &mut self,
        slot: usize,
        key: Sought<K>,
        value: X,
        adds: bool,
        steps: &mut Steps,
    ) -> Result<Option<X>, X> {
        let old = self.slots.put(slot, key, value, adds, steps)?;
        Ok(old)
    }

    /// Puts the pair of a key and a value last in its slot, whose first pair, if there is one, has
    /// another key. If the key is present, nothing changes, and the value is dropped. An absent key
    /// is added only if `adds` is true. It returns whether the key was added. If it is absent and
    /// isn't added, or if an allocation fails, the value is returned and nothing changes. It
    /// compares keys from the second pair on, up to the one sought.
    #[inline(always)]
    pub fn add_checked(
        &mut self,
        slot: usize,
        key: Sought<K>,
        value: X,
        adds: bool,
        steps: &mut Steps,
    ) -> Result<bool, X> {
        let new = self.slots.add_checked(slot, key, value, adds, steps)?;
        Ok(new)
    }
}
