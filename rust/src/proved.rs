//! The proved code: the project's Rattle sources without their contracts.
//!
//! `tools/erase` of the repository writes these modules. What is private to a crate there is
//! private to a module here. The files `written` and `mending` among them are written by hand, and
//! are tested, not proved. Each `written` is for mutable references to several values, for iterators
//! without items, or for calls of a set that the proved set lacks. Each `mending` is for a map that
//! a panic has left in the middle of a call. Items that no call of the crate reaches aren't here.
//! Imports, style and comments are as the sources have them, so comments also name contracts,
//! clauses, laws and calls that are in the sources alone.
#![allow(unused_imports, unstable_name_collisions)]
#![allow(clippy::style, clippy::complexity, clippy::perf)]

pub mod map;
pub mod set;
// `cast_unsigned` of `memory` stands in for Rust's before 1.87, and invariants name counters of loops
#[allow(clippy::incompatible_msrv, unused_variables)]
pub mod table;
