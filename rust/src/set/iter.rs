//! The iterators of a set.
use super::IntSet;
use crate::IntKey;
use crate::iter::{copied, counted, empty, owned};
use crate::proved::map::iter::{IntoKeys, Keys};
use crate::proved::set::iter::Drain as Drained;
use crate::proved::set::{IntSet as Proved, iter as proved};
use crate::proved::table::table::Progress;
use core::fmt::{self, Debug, Formatter};
use core::iter::FusedIterator;

counted! {
    /// The members of a set, made by [`IntSet::iter`].
    ///
    /// ```
    /// let set = intmap_proved::IntSet::from([0u64, 1]);
    /// assert_eq!((set.iter().len(), format!("{:?}", set.iter())), (2, "[0, 1]".to_string()));
    /// ```
    Iter ['a, K: IntKey] ['a, K] Keys<'a, K, ()> => &'a K;

    /// Removes one member of a set at each step and returns it, made by [`IntSet::drain`]. The
    /// members that it didn't return stay in the set.
    Drain ['a, K: IntKey] ['a, K] Drained<'a, K> => K;

    /// The members of a set by value, made by [`IntSet::into_iter`](IntoIterator::into_iter).
    IntoIter [K: IntKey] [K] IntoKeys<K, ()> => K;
}

owned!(Drain ['a, K: IntKey] ['a, K] IntoIter [K: IntKey] [K]);
empty!(Iter ['a, K: IntKey] ['a, K] IntoIter [K: IntKey] [K]);

impl<K: IntKey> Clone for Iter<'_, K> {
    #[inline]
    fn clone(&self) -> Self {
        Iter { inner: copied(&self.inner), left: self.left }
    }
}

impl<K: IntKey + Debug> Debug for Iter<'_, K> {
    fn fmt(&self, f: &mut Formatter<'_>) -> fmt::Result {
        Debug::fmt(&self.inner, f)
    }
}

/// Removes the members of a set that a closure picks, one at each step, made by
/// [`IntSet::extract_if`].
///
/// ```
/// let mut set = intmap_proved::IntSet::from([0u64, 1]);
/// assert_eq!(set.extract_if(|key| key > 0).next(), Some(1));
/// ```
#[must_use = "iterators are lazy and do nothing unless consumed"]
pub struct ExtractIf<'a, K, F> {
    pub(super) set: &'a mut Proved<K>,
    pub(super) at: Progress,
    pub(super) pick: F,
}

impl<K: IntKey, F: FnMut(K) -> bool> Iterator for ExtractIf<'_, K, F> {
    type Item = K;

    #[inline]
    fn next(&mut self) -> Option<K> {
        let ExtractIf { set, at, pick } = self;
        set.extract_next(at, pick)
    }

    #[inline]
    fn size_hint(&self) -> (usize, Option<usize>) {
        (0, Some(self.set.len() - self.at.passed))
    }
}

impl<K: IntKey, F: FnMut(K) -> bool> FusedIterator for ExtractIf<'_, K, F> {}

impl<K: IntKey, F> Debug for ExtractIf<'_, K, F> {
    fn fmt(&self, f: &mut Formatter<'_>) -> fmt::Result {
        f.debug_struct("ExtractIf").finish_non_exhaustive()
    }
}

/// Writes an iterator over two sets. It knows how many members are left at least, and at most.
macro_rules! combined {
    ($($(#[$doc:meta])* $name:ident;)*) => { $(
        $(#[$doc])*
        #[must_use = "iterators are lazy and do nothing unless consumed"]
        pub struct $name<'a, K> {
            pub(super) inner: proved::$name<'a, K>,
            pub(super) bounds: (usize, usize),
        }

        impl<'a, K: IntKey> Iterator for $name<'a, K> {
            type Item = &'a K;

            #[inline]
            fn next(&mut self) -> Option<&'a K> {
                let key = self.inner.next();
                let (least, most) = self.bounds;
                self.bounds = match key {
                    Some(_) => (least.saturating_sub(1), most.saturating_sub(1)),
                    None => (0, 0),
                };
                key
            }

            #[inline]
            fn size_hint(&self) -> (usize, Option<usize>) {
                (self.bounds.0, Some(self.bounds.1))
            }
        }

        impl<K: IntKey> FusedIterator for $name<'_, K> {}

        impl<K: IntKey> Clone for $name<'_, K> {
            fn clone(&self) -> Self {
                $name { inner: copied(&self.inner), bounds: self.bounds }
            }
        }

        impl<K: IntKey + Debug> Debug for $name<'_, K> {
            fn fmt(&self, f: &mut Formatter<'_>) -> fmt::Result {
                f.debug_list().entries(self.clone()).finish()
            }
        }
    )* };
}

combined! {
    /// The members of one set that are absent from another, made by [`IntSet::difference`].
    Difference;

    /// The members that two sets have, made by [`IntSet::intersection`].
    Intersection;

    /// The members of either set, made by [`IntSet::union`].
    Union;

    /// The members that exactly one of two sets has, made by [`IntSet::symmetric_difference`].
    SymmetricDifference;
}

/// The same as [`IntSet::iter`].
///
/// ```
/// let set = intmap_proved::IntSet::from([21u64]);
/// for key in &set {
///     assert_eq!(key, &21);
/// }
/// ```
impl<'a, K: IntKey> IntoIterator for &'a IntSet<K> {
    type Item = &'a K;
    type IntoIter = Iter<'a, K>;

    #[inline]
    fn into_iter(self) -> Iter<'a, K> {
        self.iter()
    }
}

/// Returns an iterator over the members by value, in iteration order.
///
/// ```
/// let set = intmap_proved::IntSet::from([0u64, 1]);
/// assert_eq!(set.into_iter().sum::<u64>(), 1);
/// ```
impl<K: IntKey> IntoIterator for IntSet<K> {
    type Item = K;
    type IntoIter = IntoIter<K>;

    #[inline]
    fn into_iter(self) -> IntoIter<K> {
        IntoIter { left: self.len(), inner: self.set.into_iter() }
    }
}
