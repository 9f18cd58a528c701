//! Why a call failed, and what it returns to the caller.

use crate::memory::prelude::*;
use core::error::Error;
use core::fmt;

/// Why a call failed.
#[derive(Clone, Copy, PartialEq, Eq, Debug)]
pub enum Cause {
    /// An allocation failed, or some 2^48 pairs would lie behind the first ones of their slots, for
    /// which no process has memory today.
    Memory,
    /// The map would need a length above 2^64 - 1, or a capacity above 2^63 slots.
    TooLarge,
}

impl fmt::Display for Cause {
    fn fmt(&self, f: &mut fmt::Formatter<'_>) -> fmt::Result {
        match self {
            Cause::Memory => write!(f, "out of memory"),
            Cause::TooLarge => write!(f, "too large"),
        }
    }
}

impl Error for Cause {}

/// A value that could not be put into a map, with the cause.
#[derive(Debug)]
pub struct Refused<V> {
    /// The value, returned to the caller.
    pub value: V,
    /// Why the call failed.
    pub cause: Cause,
}

impl<V> fmt::Display for Refused<V> {
    fn fmt(&self, f: &mut fmt::Formatter<'_>) -> fmt::Result {
        write!(f, "the value could not be inserted: {}", self.cause)
    }
}

impl<V: fmt::Debug> Error for Refused<V> {}

/// The cause alone. With `?`, a caller that returns a `Cause` drops the value.
impl<V> From<Refused<V>> for Cause {
    fn from(refused: Refused<V>) -> Cause {
        refused.cause
    }
}

/// The pair at which the insertion of several pairs failed, with the cause and the number of pairs
/// that were inserted before it.
#[derive(Debug)]
pub struct RefusedPair<K, V> {
    /// The key of the pair.
    pub key: K,
    /// Its value, returned to the caller.
    pub value: V,
    /// How many pairs were inserted before this one, or 2^64 - 1 if there were more.
    pub applied: usize,
    /// Why its insertion failed.
    pub cause: Cause,
}

impl<K, V> fmt::Display for RefusedPair<K, V> {
    fn fmt(&self, f: &mut fmt::Formatter<'_>) -> fmt::Result {
        write!(
            f,
            "a pair could not be inserted, after {} others: {}",
            self.applied, self.cause
        )
    }
}

impl<K: fmt::Debug, V: fmt::Debug> Error for RefusedPair<K, V> {}

/// The cause alone. With `?`, a caller that returns a `Cause` drops the pair.
impl<K, V> From<RefusedPair<K, V>> for Cause {
    fn from(refused: RefusedPair<K, V>) -> Cause {
        refused.cause
    }
}
