//! Single calls of a closure: at a pair, with its key, which no search of a slot can read, or at a
//! stored value.

use crate::memory::prelude::*;
use crate::proved::table::kept::Kept;
use crate::proved::table::key::IntKey;
use crate::proved::table::table::stored::Stored;

/// Whether the closure returns true for a pair.
#[inline(always)]
pub(in crate::proved::table) fn keeps_pair<K: IntKey, V, F: FnMut(K, &V) -> bool>(
    pair: &(Stored<K>, Kept<V>),
    f: &mut F,
) -> bool {
    f(*pair.0.key(), pair.1.get())
}

/// Whether the closure picks a pair. It may write the value.
#[inline(always)]
pub(in crate::proved::table) fn picks_pair<K: IntKey, V, F: FnMut(K, &mut V) -> bool>(
    pair: &mut (Stored<K>, Kept<V>),
    f: &mut F,
) -> bool {
    f(*pair.0.key(), pair.1.get_mut())
}

/// Calls the closure at a pair, with a mutable reference to its value.
#[inline(always)]
pub(in crate::proved::table) fn write_pair<K: IntKey, V, F: FnMut(K, &mut V)>(
    pair: &mut (Stored<K>, Kept<V>),
    f: &mut F,
) {
    f(*pair.0.key(), pair.1.get_mut());
}

/// Hands a stored value to the closure. A value that the closure returns as its error is stored
/// again.
#[inline(always)]
pub(in crate::proved::table) fn hand_value<V, R, F: FnOnce(V) -> Result<R, V>>(
    value: Kept<V>,
    f: F,
) -> Result<R, Kept<V>> {
    match f(value.into_value()) {
        Ok(handed) => Ok(handed),
        Err(back) => Err(Kept::new(back)),
    }
}
