//! What the maps of the crate `intmap` are made of: tables of slots, in which each pair lies in the
//! slot of its key. A program names `intmap`, which passes on what callers need of this crate.

mod bits;
pub mod kept;
mod key;
mod linked;
pub mod steps;
pub mod table;

pub use key::IntKey;
