//! Integers of 64 bits as keys.

use crate::memory::prelude::*;
use super::IntKey;

/// A `u64` is its own number.
impl IntKey for u64 {
    #[inline(always)]
    fn number(&self) -> u64 {
        *self
    }
}

/// A `usize` is its own number.
impl IntKey for usize {
    #[inline(always)]
    fn number(&self) -> u64 {
        *self as u64
    }
}

/// An `i64` that isn't negative is its own number. A negative one has the number `2 ^ 64` more:
/// `-1` has 18446744073709551615, which is `-1i64 as u64` in Rust.
impl IntKey for i64 {
    #[inline(always)]
    fn number(&self) -> u64 {
        self.cast_unsigned()
    }
}
