//! The figures of a map's table: how full it is, and how its pairs lie in it.

use crate::memory::prelude::*;
use crate::proved::map::map::IntMap;
use crate::proved::map::refusal::Cause;
use crate::proved::table::IntKey;
use crate::memory::alloc::Allocator;

impl<K: IntKey, V, A: Allocator + Copy> IntMap<K, V, A> {
    /// The number of slots that hold a pair, which is the number of different residues of the keys
    /// modulo the capacity. It counts bits, one for each slot, in words of 64. It never fails.
    pub fn load(&self) -> u64 {
        self.table.load() as u64
    }

    /// Whether `len` is the number of pairs that the slots hold, which is always true. It goes
    /// through all pairs to count them, and never fails.
    pub fn assert_count(&self) -> bool {
        self.iter().count() == self.len()
    }
}

impl<K: IntKey, V, A: Allocator + Copy> IntMap<K, V, A> {
    /// How many slots hold two pairs, how many three, and so on: a map from each number of pairs
    /// above 1 that a slot holds to the number of slots that hold exactly that many. These sizes
    /// are inserted into a new map as they are first met, slot after slot. This order determines
    /// its walk and its capacity.
    ///
    /// It fails only with [`Cause::Memory`], if an allocation for that map fails. It compares no
    /// key of this map, and its time grows with the numbers of slots and pairs.
    pub fn collisions(&self) -> Result<IntMap<u64, u64, A>, Cause> {
        let mut sizes = IntMap::new(self.table.allocator())?;
        for slot in 0..self.table.capacity() {
            let size = self.table.slot_len(slot);
            if size > 1 {
                count_once_more(&mut sizes, size as u64)?;
            }
        }
        Ok(sizes)
    }
}

/// Adds one to the count of a number. The count of an absent number is 0.
fn count_once_more<A: Allocator + Copy>(
    counts: &mut IntMap<u64, u64, A>,
    number: u64,
) -> Result<(), Cause> {
    if let Some(count) = counts.get_mut(number) {
        *count += 1;
        return Ok(());
    }
    counts.insert(number, 1)?;
    Ok(())
}
