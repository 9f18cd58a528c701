//! A panic in the code of a program that a call runs: its drops, closures, clones, iterators and
//! keys. It leaves a whole map, and no value is dropped twice or leaked.
#![forbid(unsafe_code)]

mod aimed;
mod anywhere;
mod forms;
mod fuse;
mod keys;
mod keys_anywhere;
mod left;
mod lying_keys;
#[path = "../shared/random.rs"]
mod random;
