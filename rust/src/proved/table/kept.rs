//! A value as the table stores it. No method but these reads it.
use crate::memory::prelude::*;
use crate::memory::alloc::AllocError;

/// A value that a table stores. Contracts see it as the value.
pub struct Kept<V> {
    value: V,
}

impl<V> Kept<V> {
    /// The value, to be stored.
    #[inline(always)]
    pub fn new(value: V) -> Kept<V> {
        Kept { value }
    }

    /// The value.
    #[inline(always)]
    pub fn get(&self) -> &V {
        &self.value
    }

    /// A mutable reference to the value.
    #[inline(always)]
    pub fn get_mut(&mut self) -> &mut V {
        &mut self.value
    }

    /// The value, no longer stored.
    #[inline(always)]
    pub fn into_value(self) -> V {
        self.value
    }
}

impl<V: Clone> Clone for Kept<V> {
    fn clone(&self) -> Result<Kept<V>, AllocError> {
        let value = self.value.clone()?;
        Ok(Kept { value })
    }
}
