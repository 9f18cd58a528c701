//! Why a call failed, what it returns then, and how calls end that don't return a failure.
use alloc::alloc::handle_alloc_error;
use core::alloc::Layout;
use core::hash::{Hash, Hasher};
use core::mem::discriminant;

#[doc(inline)]
pub use crate::proved::map::{Cause, Refused, RefusedPair};

/// Returns what a successful call returned. A failure ends the process or panics, as in std's
/// collections.
#[inline(always)]
pub(crate) fn granted<T, E: Into<Cause>>(result: Result<T, E>) -> T {
    match result {
        Ok(value) => value,
        Err(refused) => end(refused.into()),
    }
}

/// The proved code doesn't say how many bytes it requested, so the layout that is named here is
/// that of one word.
#[cold]
#[inline(never)]
fn end(cause: Cause) -> ! {
    match cause {
        Cause::Memory => handle_alloc_error(Layout::new::<u64>()),
        Cause::TooLarge => panic!("capacity overflow"),
    }
}

/// By the variant, so that equal causes have equal hashes.
impl Hash for Cause {
    fn hash<H: Hasher>(&self, state: &mut H) {
        discriminant(self).hash(state);
    }
}

/// The same cause, and a clone of the value.
impl<V: Clone> Clone for Refused<V> {
    fn clone(&self) -> Refused<V> {
        Refused { value: self.value.clone(), cause: self.cause }
    }
}

/// Whether both have the same cause and equal values, as `assert_eq!` asks.
///
/// ```
/// let mut map = intmap_proved::IntMap::new();
/// assert_eq!(map.try_insert(21u64, 'a'), Ok(None));
/// ```
impl<V: PartialEq> PartialEq for Refused<V> {
    fn eq(&self, other: &Refused<V>) -> bool {
        self.cause == other.cause && self.value == other.value
    }
}

impl<V: Eq> Eq for Refused<V> {}

/// The same cause and number, and clones of the key and the value.
impl<K: Clone, V: Clone> Clone for RefusedPair<K, V> {
    fn clone(&self) -> RefusedPair<K, V> {
        let (key, value) = (self.key.clone(), self.value.clone());
        RefusedPair { key, value, applied: self.applied, cause: self.cause }
    }
}

/// Whether both have the same cause and number, and equal keys and values.
impl<K: PartialEq, V: PartialEq> PartialEq for RefusedPair<K, V> {
    fn eq(&self, other: &RefusedPair<K, V>) -> bool {
        (self.cause, self.applied) == (other.cause, other.applied)
            && self.key == other.key
            && self.value == other.value
    }
}

impl<K: Eq, V: Eq> Eq for RefusedPair<K, V> {}
