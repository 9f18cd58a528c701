//! What the proved code takes from Rattle's std and Rust's doesn't have: allocations that may fail,
//! and what older compilers lack.
//!
//! Rust's `Vec` and `Clone` end the process if an allocation fails. Rattle's return an error. These
//! stand in for them, over Rust's own.

pub mod vec;

pub use vec::Vec;

/// `vec![in alloc; item; count]`, which returns a `Result`.
macro_rules! filled {
    (in $alloc:expr; $item:expr; $count:expr) => {
        $crate::memory::Vec::filled($alloc, $item, $count)
    };
}

pub(crate) use filled;

/// Allocators, and failed allocations.
pub mod alloc {
    /// An allocation failed.
    #[derive(Clone, Copy, PartialEq, Eq, Debug)]
    pub struct AllocError;

    /// The handle of an allocator. There is one, since stable Rust names no other.
    pub trait Allocator {}

    /// The handle of Rust's global allocator.
    #[derive(Clone, Copy, Default, Debug)]
    pub struct Global;

    impl Allocator for Global {}
}

/// Clones that may fail.
pub mod clone {
    use crate::memory::alloc::AllocError;

    /// A type whose values can be cloned.
    pub trait Clone: Sized {
        /// A second value, or an error if an allocation failed.
        fn clone(&self) -> Result<Self, AllocError>;
    }

    /// Rust's `Clone` never fails: it ends the process instead.
    impl<T: core::clone::Clone> Clone for T {
        #[inline]
        fn clone(&self) -> Result<T, AllocError> {
            Ok(core::clone::Clone::clone(self))
        }
    }
}

/// Casts of integers, which Rust has since 1.87.
pub mod number {
    /// A signed integer that can be cast to the unsigned one with the same bits. A newer compiler
    /// takes Rust's own call of this name.
    #[allow(dead_code)]
    pub trait CastUnsigned {
        /// The unsigned integer.
        fn cast_unsigned(self) -> u64;
    }

    impl CastUnsigned for i64 {
        #[inline(always)]
        fn cast_unsigned(self) -> u64 {
            self as u64
        }
    }
}

/// What each file of the proved code names without a path.
pub mod prelude {
    pub use super::Vec;
    pub use super::clone::Clone;
    pub(crate) use super::filled as vec;
    pub use super::number::CastUnsigned;
}
