//! Equality of maps, their text, and clones.

use crate::memory::prelude::*;
use crate::proved::map::map::IntMap;
use crate::proved::map::refusal::Cause;
use crate::proved::table::IntKey;
use crate::proved::table::steps::Steps;
use crate::memory::alloc::Allocator;
use core::fmt;

impl<K: IntKey, V: PartialEq, A: Allocator + Copy> PartialEq for IntMap<K, V, A> {
    /// Whether both maps have the same keys, each with equal values. The order of the pairs, the
    /// capacities, the load factors and the counts don't matter.
    ///
    /// The lengths are compared first. If they are equal, each key of this map is looked up in the
    /// other, in iteration order, up to the first that is absent there or has an unequal value. It
    /// never fails, and its comparisons of keys aren't counted.
    fn eq(&self, other: &IntMap<K, V, A>) -> bool {
        if self.len() != other.len() {
            return false;
        }
        for (key, value) in self {
            match other.get(*key) {
                Some(theirs) => {
                    if value != theirs {
                        return false;
                    }
                }
                None => return false,
            }
        }
        true
    }
}

impl<K: IntKey, V: Eq, A: Allocator + Copy> Eq for IntMap<K, V, A> {}

impl<K: IntKey, V: Clone, A: Allocator + Copy> IntMap<K, V, A> {
    /// A map with the same keys in the same order, each with a clone of its value, and with the
    /// same capacity and load factor. Its own counts begin at zero. This map stays as it is. No key
    /// is compared. Time and memory grow with the number of slots and of pairs.
    ///
    /// It first allocates the slots, their bits and, if pairs share slots, room for exactly the
    /// pairs behind the first ones of their slots. Then it clones the values, in iteration order.
    ///
    /// It fails only with [`Cause::Memory`], if one of these allocations or the clone of a value
    /// fails. What was made until then is dropped.
    pub fn clone(&self) -> Result<IntMap<K, V, A>, Cause> {
        let Ok(table) = self.table.clone() else {
            return Err(Cause::Memory);
        };
        Ok(IntMap {
            table,
            len: self.len,
            threshold: self.threshold,
            factor: self.factor,
            placed: Steps::new(),
            compared: Steps::new(),
            reserved: Steps::new(),
        })
    }
}
