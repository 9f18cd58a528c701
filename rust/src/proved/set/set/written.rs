//! A member as the set has it, the removal of members that a closure picks, and the load factor.
use super::IntSet;
use crate::memory::alloc::Allocator;
use crate::proved::map::{Cause, IntKey};
use crate::proved::table::table::Progress;

impl<K: IntKey, A: Allocator + Copy> IntSet<K, A> {
    /// The member that is equal to the key.
    pub fn get(&self, key: K) -> Option<&K> {
        let (member, _) = self.map.get_key_value(key)?;
        Some(member)
    }

    /// Removes the first member that the closure picks, of those that are left, and moves on to the
    /// one behind it.
    pub fn extract_next<F: FnMut(K) -> bool>(
        &mut self,
        at: &mut Progress,
        test: &mut F,
    ) -> Option<K> {
        let (member, ()) = self.map.extract_step(at, &mut |key, _| test(key))?;
        Some(member)
    }

    /// The number of slots that have a member.
    pub fn load(&self) -> u64 {
        self.map.load()
    }

    /// The load factor in thousandths.
    pub fn load_factor_thousandths(&self) -> usize {
        self.map.get_load_factor()
    }

    /// Sets the load factor in thousandths. It fails as that of a map.
    pub fn set_load_factor(&mut self, thousandths: usize) -> Result<(), Cause> {
        self.map.set_load_factor(thousandths)
    }
}
