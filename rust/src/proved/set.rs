//! Sets of integers, on a map from each member to nothing. Their iteration order and their capacity
//! depend on their calls alone.

mod set;

pub use set::{IntSet, iter};
