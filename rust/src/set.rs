//! A set of integers, and its iterators.
//!
//! ```
//! use intmap_proved::{set::Union, IntSet};
//!
//! fn count(members: Union<'_, u64>) -> usize {
//!     members.count()
//! }
//!
//! assert_eq!(count(IntSet::from([1, 2]).union(&IntSet::from([2, 3]))), 3);
//! ```
use crate::IntKey;
use crate::guard::guarded;
use crate::memory::alloc::Global;
use crate::proved::set::IntSet as Proved;
use crate::refusal::{Cause, granted};

// `basic` is the first, so that its calls are the first on the page of the set
mod basic;
mod combine;
mod iter;
mod many;
mod room;
mod traits;

pub use iter::{
    Difference, Drain, ExtractIf, Intersection, IntoIter, Iter, SymmetricDifference, Union,
};

/// A set of integers.
///
/// Its members lie in slots as the keys of an [`IntMap`](crate::IntMap) do, and iteration goes
/// through them in the same way: order and capacity depend on the calls alone. Its
/// [memory](crate::IntMap#memory) is that of a map whose pairs take the space of a key.
///
/// In what the calls say of their cost, *n* is the number of members, *c* the capacity, and *s* the
/// number of members in the slot of the key. A call over two sets walks one or both, at *O*(*n* +
/// *c*), and looks members up in the other, at *O*(*s*) each. Where a call says nothing of its
/// cost, the cost is that of the map's call of the same name.
///
/// ```
/// use intmap_proved::IntSet;
///
/// let first = IntSet::from([1u64, 2, 3]);
/// let second = IntSet::from([2, 3, 4]);
/// assert_eq!(&first & &second, IntSet::from([2, 3]));
/// assert!(first.contains(1) && !second.contains(1));
/// ```
pub struct IntSet<K> {
    set: Proved<K>,
}
