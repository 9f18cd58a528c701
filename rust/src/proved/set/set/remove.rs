//! Removals.

use crate::memory::prelude::*;
use crate::proved::set::set::IntSet;
use crate::proved::map::IntKey;
use crate::memory::alloc::Allocator;

impl<K: IntKey, A: Allocator + Copy> IntSet<K, A> {
    /// Removes the key, and returns whether it was a member. The last member of the slot takes its
    /// place. Its search is counted, whether the key was a member or not. It never fails.
    pub fn remove(&mut self, key: K) -> bool {
        self.map.remove(key).is_some()
    }

    /// Removes the first member of the walk and returns it. No slot before `from` holds a member;
    /// `from` moves on to the slot that held the removed one.
    pub(in crate::proved::set) fn take_front(&mut self, from: &mut usize) -> Option<K> {
        let (key, ()) = self.map.take_front(from)?;
        Some(key)
    }

    /// Removes all members. The capacity, the load factor and both counts stay, and the set keeps
    /// its memory for later members. It goes through the slots that hold a member, and never fails.
    pub fn clear(&mut self) {
        self.map.clear();
    }

    /// Keeps the members for which the closure returns true, and removes the others. The closure is
    /// called once for each member, in iteration order. The next call sees what this one changed of
    /// the closure's state.
    ///
    /// The closure must be callable at these members in this order, each time in the state that the
    /// call before left. Nothing is required of other keys and calls.
    ///
    /// The members that stay keep their order. The capacity, the load factor and both counts stay,
    /// and the set keeps its memory for later members. It never fails and allocates nothing.
    pub fn retain<F: FnMut(K) -> bool>(&mut self, f: F) {
        let mut f = f;
        self.map.retain(
            move |key, _| { f(key) },
        );
    }
}
