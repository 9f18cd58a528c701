//! The names of Rust's crate `intmap` 2.0.0, with `u64` keys.
//!
//! A program that uses that crate changes its `use` line alone:
//!
//! ```
//! // use intmap::{Entry, IntMap};
//! use intmap_proved::original::{Entry, IntMap};
//!
//! let mut map: IntMap<&str> = IntMap::new();
//! map.insert(21, "half the truth");
//! if let Entry::Occupied(mut entry) = map.entry(21) {
//!     entry.insert("a half");
//! }
//! assert_eq!(map.get(21), Some(&"a half"));
//! ```
//!
//! Calls, arguments, order of iteration, capacities and the cut of the load factor are the same,
//! and all calls of [`intmap_proved::IntMap`](crate::IntMap) are there too. What differs:
//!
//! - Iterators know how many items are left; the original's don't say it. So a map that is collected
//!   from the iterator of another map begins with a slot for each pair, where the original's begins
//!   with 2. Its capacity and its order may differ then.
//! - [`Entry`] is the name of a type, so a `use` line that names its variants takes them from
//!   [`intmap_proved::Entry`](crate::Entry).
//! - A [`drain`](IntMap::drain) that is dropped early leaves the pairs that it didn't return; the
//!   original may lose them.
//! - A capacity above 2^63 is a panic at once, or a failed `try_` call. The original's
//!   `with_capacity` allocates until that fails, and its `reserve` overflows.
//! - A debug build panics at a load factor of 10 or more, which was meant as a percentage, and at a
//!   `NaN`. [`try_set_load_factor_thousandths`](IntMap::try_set_load_factor_thousandths) takes any.
//! - For `serde` there is a crate of its own, `intmap_proved_serde`.
//!
//! ```
//! use intmap_proved::original::IntMap;
//!
//! let map: IntMap<u64> = (0..9).map(|key| (key, key)).collect();
//! assert_eq!(map.capacity(), 16);
//! // the original's has 8 slots
//! assert_eq!(map.into_iter().collect::<IntMap<u64>>().capacity(), 16);
//! ```

/// A map with `u64` keys.
pub type IntMap<V> = crate::IntMap<u64, V>;

/// A map with a key that was looked up in it.
pub type Entry<'a, V> = crate::Entry<'a, u64, V>;

/// A map with a key that is present in it.
pub type OccupiedEntry<'a, V> = crate::OccupiedEntry<'a, u64, V>;

/// A map with a key that is absent from it.
pub type VacantEntry<'a, V> = crate::VacantEntry<'a, u64, V>;
