//! The map of this repository's crate for Rust.
pub use intmap_proved::original::{Entry, IntMap};

#[path = "calls.rs"]
pub mod calls;
