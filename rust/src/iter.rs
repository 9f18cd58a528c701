//! The iterators of a map.
//!
//! All go through the slots in turn, and through each slot from front to back. All stay at their
//! end. All know how many items are left, except [`ExtractIf`], which knows how many at most.
//!
//! The text of [`Iter`], [`Keys`] and [`Values`] has the items that are left; that of most others
//! says how many are.
//!
//! ```
//! use intmap_proved::{iter::Iter, IntMap};
//!
//! fn first<'a>(mut pairs: Iter<'a, u64, char>) -> Option<(&'a u64, &'a char)> {
//!     pairs.next()
//! }
//!
//! let map = IntMap::from([(0, 'a'), (1, 'b')]);
//! assert_eq!(first(map.iter()), Some((&0, &'a')));
//! assert_eq!(map.iter().size_hint(), (2, Some(2)));
//! assert_eq!(map.into_iter().len(), 2);
//! ```
use crate::IntKey;
use crate::memory::clone;
use crate::proved::map::iter as proved;
use core::fmt::{self, Debug, Formatter};
use core::iter::FusedIterator;

/// Writes an iterator that counts the items that are left.
macro_rules! counted {
    ($(
        $(#[$doc:meta])*
        $name:ident [$($generics:tt)*] [$($args:tt)*] $inner:ty => $item:ty;
    )*) => { $(
        $(#[$doc])*
        #[must_use = "iterators are lazy and do nothing unless consumed"]
        pub struct $name<$($args)*> {
            pub(crate) inner: $inner,
            pub(crate) left: usize,
        }

        impl<$($generics)*> Iterator for $name<$($args)*> {
            type Item = $item;

            #[inline]
            fn next(&mut self) -> Option<$item> {
                // before the step, in which the drop of a value may panic
                self.left = self.left.saturating_sub(1);
                self.inner.next()
            }

            #[inline]
            fn size_hint(&self) -> (usize, Option<usize>) {
                (self.left, Some(self.left))
            }
        }

        impl<$($generics)*> ExactSizeIterator for $name<$($args)*> {}

        impl<$($generics)*> FusedIterator for $name<$($args)*> {}
    )* };
}

/// Writes the text of an iterator that can't be cloned: how many items are left.
macro_rules! owned {
    ($($name:ident [$($generics:tt)*] [$($args:tt)*])*) => { $(
        impl<$($generics)*> Debug for $name<$($args)*> {
            fn fmt(&self, f: &mut Formatter<'_>) -> fmt::Result {
                f.debug_struct(stringify!($name)).field("left", &self.left).finish()
            }
        }
    )* };
}

/// Writes an iterator without items. It allocates nothing.
macro_rules! empty {
    ($($name:ident [$($generics:tt)*] [$($args:tt)*])*) => { $(
        impl<$($generics)*> Default for $name<$($args)*> {
            fn default() -> Self {
                $name { inner: Default::default(), left: 0 }
            }
        }
    )* };
}

pub(crate) use {counted, empty, owned};

counted! {
    /// The pairs of a map, made by [`IntMap::iter`](crate::IntMap::iter).
    ///
    /// ```
    /// let map = intmap_proved::IntMap::from([(0u64, 'a'), (1, 'b')]);
    /// let mut pairs = map.iter();
    /// assert_eq!((pairs.len(), pairs.next()), (2, Some((&0, &'a'))));
    /// ```
    Iter ['a, K: IntKey, V] ['a, K, V] proved::Iter<'a, K, V> => (&'a K, &'a V);

    /// The pairs of a map, whose values can be changed, made by
    /// [`IntMap::iter_mut`](crate::IntMap::iter_mut).
    IterMut ['a, K: IntKey, V] ['a, K, V] proved::IterMut<'a, K, V> => (&'a K, &'a mut V);

    /// The keys of a map, made by [`IntMap::keys`](crate::IntMap::keys).
    Keys ['a, K: IntKey, V] ['a, K, V] proved::Keys<'a, K, V> => &'a K;

    /// The values of a map, made by [`IntMap::values`](crate::IntMap::values).
    Values ['a, K: IntKey, V] ['a, K, V] proved::Values<'a, K, V> => &'a V;

    /// The values of a map, which can be changed, made by
    /// [`IntMap::values_mut`](crate::IntMap::values_mut).
    ///
    /// ```
    /// let mut map = intmap_proved::IntMap::from([(0u64, 'a'), (1, 'b')]);
    /// assert_eq!(format!("{:?}", map.values_mut()), "ValuesMut { left: 2 }");
    /// ```
    ValuesMut ['a, K: IntKey, V] ['a, K, V] proved::ValuesMut<'a, K, V> => &'a mut V;

    /// Removes one pair of a map at each step and returns it, made by
    /// [`IntMap::drain`](crate::IntMap::drain). The pairs that it didn't return stay in the map.
    Drain ['a, K: IntKey, V] ['a, K, V] proved::Drain<'a, K, V> => (K, V);

    /// The pairs of a map by value, made by [`IntMap::into_iter`](IntoIterator::into_iter).
    IntoIter [K: IntKey, V] [K, V] proved::IntoIter<K, V> => (K, V);

    /// The keys of a map by value, made by [`IntMap::into_keys`](crate::IntMap::into_keys).
    IntoKeys [K: IntKey, V] [K, V] proved::IntoKeys<K, V> => K;

    /// The values of a map by value, made by [`IntMap::into_values`](crate::IntMap::into_values).
    IntoValues [K: IntKey, V] [K, V] proved::IntoValues<K, V> => V;
}

owned! {
    IterMut ['a, K: IntKey, V] ['a, K, V]
    ValuesMut ['a, K: IntKey, V] ['a, K, V]
    Drain ['a, K: IntKey, V] ['a, K, V]
    IntoIter [K: IntKey, V] [K, V]
    IntoKeys [K: IntKey, V] [K, V]
    IntoValues [K: IntKey, V] [K, V]
}

empty! {
    Iter ['a, K: IntKey, V] ['a, K, V]
    IterMut ['a, K: IntKey, V] ['a, K, V]
    Keys ['a, K: IntKey, V] ['a, K, V]
    Values ['a, K: IntKey, V] ['a, K, V]
    ValuesMut ['a, K: IntKey, V] ['a, K, V]
    IntoIter [K: IntKey, V] [K, V]
    IntoKeys [K: IntKey, V] [K, V]
    IntoValues [K: IntKey, V] [K, V]
}

/// Writes clones of an iterator, and the text of the items that are left.
macro_rules! shared {
    ($($name:ident [$($bound:tt)*])*) => { $(
        impl<K: IntKey, V> Clone for $name<'_, K, V> {
            #[inline]
            fn clone(&self) -> Self {
                $name { inner: copied(&self.inner), left: self.left }
            }
        }

        impl<K: IntKey + Debug, V $($bound)*> Debug for $name<'_, K, V> {
            fn fmt(&self, f: &mut Formatter<'_>) -> fmt::Result {
                Debug::fmt(&self.inner, f)
            }
        }
    )* };
}

shared!(Iter [: Debug] Keys [] Values [: Debug]);

/// Removes the pairs of a map that a closure picks, one at each step, made by
/// [`IntMap::extract_if`](crate::IntMap::extract_if).
///
/// ```
/// let mut map = intmap_proved::IntMap::from([(0u64, 'a'), (1, 'b')]);
/// assert_eq!(map.extract_if(|key, _| key > 0).next(), Some((1, 'b')));
/// ```
#[must_use = "iterators are lazy and do nothing unless consumed"]
pub struct ExtractIf<'a, K, V, F> {
    pub(crate) inner: proved::ExtractIf<'a, K, V, F>,
}

impl<K: IntKey, V, F: FnMut(K, &mut V) -> bool> Iterator for ExtractIf<'_, K, V, F> {
    type Item = (K, V);

    #[inline]
    fn next(&mut self) -> Option<(K, V)> {
        self.inner.next()
    }

    #[inline]
    fn size_hint(&self) -> (usize, Option<usize>) {
        self.inner.size_hint()
    }
}

impl<K: IntKey, V, F: FnMut(K, &mut V) -> bool> FusedIterator for ExtractIf<'_, K, V, F> {}

impl<K: IntKey, V, F> Debug for ExtractIf<'_, K, V, F> {
    fn fmt(&self, f: &mut Formatter<'_>) -> fmt::Result {
        f.debug_struct("ExtractIf").finish_non_exhaustive()
    }
}

/// A copy of an iterator that holds references alone. It doesn't allocate, so it doesn't fail.
#[inline]
pub(crate) fn copied<T: clone::Clone>(iterator: &T) -> T {
    match clone::Clone::clone(iterator) {
        Ok(copy) => copy,
        Err(_) => unreachable!("a copy of references allocates nothing"),
    }
}
