//! Growth that a panic ends when there is no memory left: the map is made whole without any.
use crate::allocator::{fail_above, failing_above};
use intmap_proved::{IntKey, IntMap};
use std::cell::Cell;
use std::panic::{AssertUnwindSafe, catch_unwind, resume_unwind};

thread_local! {
    /// How many numbers are left up to the one that panics, or 0.
    static LEFT: Cell<u64> = const { Cell::new(0) };
}

/// More than a panic requests, and less than the nodes of the pairs that share a slot here.
const MOST: usize = 128;
const SHARED: u64 = 20;

/// A key whose number may panic, and then leaves no memory.
#[derive(Clone, Copy, PartialEq, Eq, Debug)]
struct Key(u64);

impl IntKey for Key {
    fn number(&self) -> u64 {
        let left = LEFT.get();
        LEFT.set(left.saturating_sub(1));
        if left == 1 {
            fail_above(MOST);
            resume_unwind(Box::new(()));
        }
        self.0
    }
}

/// Keys that share a slot of 64, and have another one of 128, which is added; and keys that have
/// slots of their own.
fn keys() -> impl Iterator<Item = Key> {
    (0..SHARED).map(|it| 64 + 128 * it).chain(1..20).map(Key)
}

#[test]
fn a_map_that_no_memory_is_left_to_mend_keeps_its_pairs() {
    let mut panics = 0;
    for place in 1.. {
        let mut map = IntMap::with_capacity(64);
        map.extend(keys().map(|key| (key, key.0)));
        LEFT.set(place);
        let grow = || catch_unwind(AssertUnwindSafe(|| map.reserve(100))).is_err();
        let (panicked, _) = failing_above(usize::MAX, grow);
        LEFT.set(0);
        assert!(map.assert_count() && map.iter().all(|(key, value)| key.0 == *value));
        assert!(keys().all(|key| map.contains_key(key)), "place {place}");
        assert_eq!(map.len(), keys().count(), "place {place}");
        if !panicked {
            break;
        }
        panics += 1;
    }
    assert!(panics > 30, "only {panics} panics");
}
