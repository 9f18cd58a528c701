//! A panic at a place that a test chooses, and values that count themselves.
use intmap_proved::IntMap;
use std::cell::Cell;
use std::panic::{AssertUnwindSafe, catch_unwind, resume_unwind};

thread_local! {
    /// How many places are left up to the one that panics, or 0.
    static LEFT: Cell<u64> = const { Cell::new(0) };
    static LIVE: Cell<usize> = const { Cell::new(0) };
}

/// A place that may panic, without a message.
pub fn burn() {
    let left = LEFT.get();
    LEFT.set(left.saturating_sub(1));
    if left == 1 {
        resume_unwind(Box::new("the fuse is at its end"));
    }
}

/// Makes the call with a panic at its `number`-th place, or with none at 0. Returns whether it
/// panicked.
pub fn panics_at(number: u64, call: impl FnOnce()) -> bool {
    LEFT.set(number);
    let ended = catch_unwind(AssertUnwindSafe(call));
    LEFT.set(0);
    ended.is_err()
}

/// How many values live.
pub fn live() -> usize {
    LIVE.get()
}

/// A value whose drop, clone and comparison are places that may panic.
#[derive(Debug)]
pub struct Value(pub u64);

impl Value {
    pub fn new(number: u64) -> Value {
        LIVE.set(LIVE.get() + 1);
        Value(number)
    }
}

impl Clone for Value {
    fn clone(&self) -> Value {
        burn();
        Value::new(self.0)
    }
}

impl PartialEq for Value {
    fn eq(&self, other: &Value) -> bool {
        burn();
        self.0 == other.0
    }
}

impl Drop for Value {
    fn drop(&mut self) {
        LIVE.set(LIVE.get().checked_sub(1).expect("a value was dropped twice"));
        burn();
    }
}

/// Fails unless all that a map shows of itself agrees, and its values alone live.
#[track_caller]
pub fn is_whole(map: &IntMap<u64, Value>, after: &str) {
    assert!(map.assert_count(), "the count {after}");
    assert_eq!(map.iter().count(), map.len(), "pairs {after}");
    assert!(
        map.iter().all(|(key, value)| map.get(*key).map(|it| it.0) == Some(value.0)),
        "{after}"
    );
    let shared: u64 = map.collisions().iter().map(|(pairs, slots)| (pairs - 1) * slots).sum();
    assert_eq!(shared + map.load(), map.len() as u64, "slots {after}");
    assert_eq!(live(), map.len(), "values that live {after}");
}
