//! The guard of the calls that run a caller's code in the middle of a change: that of a closure, of
//! a drop, or of a key's `number`.
use crate::IntKey;
use crate::proved::map::IntMap;
use crate::proved::set::IntSet;

/// What can be made whole after a panic.
pub(crate) trait Mend {
    fn mend(&mut self);
}

impl<K: IntKey, V> Mend for IntMap<K, V> {
    fn mend(&mut self) {
        IntMap::mend(self);
    }
}

impl<K: IntKey> Mend for IntSet<K> {
    fn mend(&mut self) {
        IntSet::mend(self);
    }
}

/// Makes a map or a set whole as the guard is dropped, which only a panic does.
pub(crate) struct Mending<'a, T: Mend>(pub(crate) &'a mut T);

impl<T: Mend> Drop for Mending<'_, T> {
    #[cold]
    #[inline(never)]
    fn drop(&mut self) {
        self.0.mend();
    }
}

/// Makes a call on a map or a set, and makes that whole if the call panics. As a function with a
/// closure it would take more instructions: twice as many for the insertion of a present key.
macro_rules! guarded {
    ($whole:expr, |$name:ident| $call:expr) => {{
        let guard = $crate::guard::Mending($whole);
        let $name = &mut *guard.0;
        let result = $call;
        core::mem::forget(guard);
        result
    }};
}
pub(crate) use guarded;
