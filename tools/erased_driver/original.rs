//! The map of Rust's crate `intmap`.
pub use intmap::{Entry, IntMap};

#[path = "calls.rs"]
pub mod calls;
