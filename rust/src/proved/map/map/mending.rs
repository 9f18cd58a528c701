//! Maps that a panic has left in the middle of a call.
use super::IntMap;
use crate::memory::alloc::Allocator;
use crate::proved::table::IntKey;
use core::mem::forget;

impl<K: IntKey, V, A: Allocator + Copy> IntMap<K, V, A> {
    /// Makes a map whole again after a panic of a closure, of a drop or of a key's `number`.
    pub fn mend(&mut self) {
        self.len = self.table.mend();
    }
}

/// Makes a map whole as the guard is dropped, which only a panic does.
struct Mending<'a, K: IntKey, V, A: Allocator + Copy>(&'a mut IntMap<K, V, A>);

impl<K: IntKey, V, A: Allocator + Copy> Drop for Mending<'_, K, V, A> {
    #[cold]
    #[inline(never)]
    fn drop(&mut self) {
        self.0.mend();
    }
}

/// Makes a call on a map, and makes that whole if the call panics.
#[inline(always)]
pub(super) fn held<K: IntKey, V, A: Allocator + Copy, R>(
    map: &mut IntMap<K, V, A>,
    call: impl FnOnce(&mut IntMap<K, V, A>) -> R,
) -> R {
    let guard = Mending(map);
    let result = call(&mut *guard.0);
    forget(guard);
    result
}
