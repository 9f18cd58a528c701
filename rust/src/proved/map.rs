//! A hash map from integer keys. Its iteration order and its capacity depend on its calls alone:
//! there is no random seed.

pub mod entry;
mod load;
mod map;
mod refusal;

pub use crate::proved::table::{IntKey, steps};
pub use map::{IntMap, iter};
pub use refusal::{Cause, Refused, RefusedPair};
