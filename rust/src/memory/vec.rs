//! A vector whose allocations may fail.
use crate::memory::alloc::{AllocError, Allocator, Global};
use core::ops::{Deref, DerefMut};

/// Rust's `Vec` with the handle of an allocator beside it. Each call that allocates may fail.
#[derive(Debug)]
pub struct Vec<T, A: Allocator = Global> {
    items: alloc::vec::Vec<T>,
    alloc: A,
}

impl<T, A: Allocator> Vec<T, A> {
    /// A vector without items. It allocates nothing.
    #[inline]
    pub const fn new(alloc: A) -> Vec<T, A> {
        Vec { items: alloc::vec::Vec::new(), alloc }
    }

    /// A vector without items, with room for exactly `capacity`.
    pub fn with_capacity(alloc: A, capacity: usize) -> Result<Vec<T, A>, AllocError> {
        let mut made = Vec::new(alloc);
        made.reserve_exact(capacity)?;
        Ok(made)
    }

    /// A copy of the items.
    pub fn from_slice(alloc: A, items: &[T]) -> Result<Vec<T, A>, AllocError>
    where
        T: Copy,
    {
        let mut made = Vec::with_capacity(alloc, items.len())?;
        made.items.extend_from_slice(items);
        Ok(made)
    }

    /// `count` copies of an item, which `vec![in alloc; item; count]` makes.
    pub fn filled(alloc: A, item: T, count: usize) -> Result<Vec<T, A>, AllocError>
    where
        T: Copy,
    {
        let mut made = Vec::with_capacity(alloc, count)?;
        made.items.resize(count, item);
        Ok(made)
    }

    /// The handle of the allocator.
    #[inline]
    pub fn allocator(&self) -> &A {
        &self.alloc
    }

    /// Makes room for `additional` items more, and for further ones if it allocates.
    pub fn reserve(&mut self, additional: usize) -> Result<(), AllocError> {
        self.items.try_reserve(additional).map_err(|_| AllocError)
    }

    /// Makes room for exactly `additional` items more.
    pub fn reserve_exact(&mut self, additional: usize) -> Result<(), AllocError> {
        self.items.try_reserve_exact(additional).map_err(|_| AllocError)
    }

    /// Gives back the room that no item needs. It moves the items to a smaller block, and keeps the
    /// present one if that allocation fails: Rust's `shrink_to_fit` would end the process.
    pub fn shrink_to_fit(&mut self) {
        if self.items.capacity() == self.items.len() {
            return;
        }
        let mut made = alloc::vec::Vec::new();
        if made.try_reserve_exact(self.items.len()).is_ok() {
            made.append(&mut self.items);
            self.items = made;
        }
    }

    /// Adds an item at the end. The proof shows that there is room. If a type of keys breaks the
    /// rules of its trait there may be none, and then this allocates as Rust's `push` does.
    #[inline]
    pub fn push_reserved(&mut self, item: T) {
        self.items.push(item);
    }

    /// Makes the vector `len` items long: drops those behind, or adds what the closure returns.
    pub fn resize_with<F: FnMut() -> T>(&mut self, len: usize, make: F) -> Result<(), AllocError> {
        if len > self.items.len() {
            self.reserve(len - self.items.len())?;
        }
        self.items.resize_with(len, make);
        Ok(())
    }

    /// Drops all items but the first `len`.
    pub fn truncate(&mut self, len: usize) {
        self.items.truncate(len);
    }

    /// The items, to be written.
    #[inline]
    pub fn as_mut_slice(&mut self) -> &mut [T] {
        &mut self.items
    }
}

impl<T, A: Allocator> Deref for Vec<T, A> {
    type Target = [T];

    #[inline]
    fn deref(&self) -> &[T] {
        &self.items
    }
}

impl<T, A: Allocator> DerefMut for Vec<T, A> {
    #[inline]
    fn deref_mut(&mut self) -> &mut [T] {
        &mut self.items
    }
}

impl<'a, T, A: Allocator> IntoIterator for &'a Vec<T, A> {
    type Item = &'a T;
    type IntoIter = core::slice::Iter<'a, T>;

    #[inline]
    fn into_iter(self) -> core::slice::Iter<'a, T> {
        self.items.iter()
    }
}
