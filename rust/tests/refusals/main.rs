//! Allocations that fail: each in turn, of each call that makes any. The call then returns an error
//! and its value, and leaves the map.
mod allocator;
mod bytes;
mod each_call;
mod ends;
mod large;
mod mended;
#[path = "../shared/random.rs"]
mod random;
mod random_calls;
mod returned;
mod room;
