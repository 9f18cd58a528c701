//! Integers of fewer than 64 bits as keys.

use crate::memory::prelude::*;
use super::IntKey;

/// A `u8` is its own number.
impl IntKey for u8 {
    #[inline(always)]
    fn number(&self) -> u64 {
        *self as u64
    }
}

/// A `u16` is its own number.
impl IntKey for u16 {
    #[inline(always)]
    fn number(&self) -> u64 {
        *self as u64
    }
}

/// A `u32` is its own number.
impl IntKey for u32 {
    #[inline(always)]
    fn number(&self) -> u64 {
        *self as u64
    }
}

/// An `i32` that isn't negative is its own number. A negative one has the number `2 ^ 64` more:
/// `-1` has 18446744073709551615, which is `-1i32 as u64` in Rust.
impl IntKey for i32 {
    #[inline(always)]
    fn number(&self) -> u64 {
        i64::from(*self).cast_unsigned()
    }
}
