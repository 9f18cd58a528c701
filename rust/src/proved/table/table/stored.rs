//! Stored keys. They are compared by one method, and that method counts the comparison.

use crate::memory::prelude::*;
use crate::proved::table::key::IntKey;
use crate::proved::table::steps::Steps;

/// A stored key. It has no `==`, and its field is private: [`Stored::matches`] returns whether it
/// is the sought key, and counts one step. [`Stored::key`] is for walks and closures, which hand
/// keys out, and for the numbers of slots. A search of a slot can't call it.
pub struct Stored<K> {
    key: K,
}

/// A key that is looked for, with its number, which is asked for once.
pub struct Sought<K> {
    key: K,
    number: u64,
}

impl<K: IntKey> Sought<K> {
    /// The key, once its number is known.
    #[inline(always)]
    pub fn new(key: K) -> Sought<K> {
        Sought {
            key,
            number: key.number(),
        }
    }

    /// The key.
    #[inline(always)]
    pub fn key(&self) -> K {
        self.key
    }

    /// A copy of the key, with the number that is known.
    #[inline(always)]
    pub fn copied(&self) -> Sought<K> {
        Sought {
            key: self.key,
            number: self.number,
        }
    }

    /// Its number.
    #[inline(always)]
    pub(in crate::proved::table) fn number(&self) -> u64 {
        self.number
    }
}

impl<K: IntKey> Stored<K> {
    /// Stores a key that was looked for.
    #[inline(always)]
    pub(in crate::proved::table) fn new(key: Sought<K>) -> Stored<K> {
        Stored { key: key.key }
    }

    /// A copy of the stored key. It counts no step, since nothing is compared.
    #[inline(always)]
    pub(in crate::proved::table) fn copied(&self) -> Stored<K> {
        Stored { key: self.key }
    }

    /// Whether this is the sought key. It counts one step.
    #[inline(always)]
    pub(in crate::proved::table) fn matches(&self, key: &Sought<K>, steps: &mut Steps) -> bool {
        steps.tick();
        self.key.number() == key.number
    }

    /// The key, to be returned or to compute its slot.
    #[inline(always)]
    pub(in crate::proved::table::table) fn key(&self) -> &K {
        &self.key
    }
}
