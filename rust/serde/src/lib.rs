//! [serde](https://serde.rs) for the maps and sets of [`intmap_proved`].
//!
//! ```
//! use intmap_proved::IntMap;
//! use serde::{Deserialize, Serialize};
//!
//! #[derive(Serialize, Deserialize)]
//! struct Stock {
//!     #[serde(with = "intmap_proved_serde")]
//!     prices: IntMap<u64, u32>,
//! }
//!
//! let stock: Stock = serde_json::from_str(r#"{"prices": {"7": 250, "4": 120}}"#)?;
//! assert_eq!(stock.prices[7], 250);
//! assert_eq!(serde_json::to_string(&stock)?, r#"{"prices":{"4":120,"7":250}}"#);
//! # Ok::<(), serde_json::Error>(())
//! ```
//!
//! A map is serialized as a map and a set as a sequence, in iteration order. Both are deserialized
//! by insertions in the order of the input. So a map that was read is equal to the one that was
//! written, but its capacity and its order may differ.
//!
//! # Failed allocations
//!
//! If an allocation of the map or the set fails, the deserializer returns an error with the text of
//! the [`Cause`](intmap_proved::Cause). What a deserializer allocates itself, such as its error, is
//! its own concern. An input that claims a great length makes a map request some 2 MiB at most. A
//! longer map grows as its pairs come.
//!
//! # Texts from strangers
//!
//! Whoever writes a text can choose keys that share one slot. Reading *n* of them takes time in the
//! square of *n*: a text of 1 MB took more than a second.
//! [`int_key!`](intmap_proved::int_key) declares types of keys that are scrambled by a secret, and
//! may derive serde's traits; the README has an example.
#![no_std]
#![forbid(unsafe_code)]
#![warn(missing_docs)]

mod read;
mod wrapped;

use serde::{Deserialize, Deserializer, Serialize, Serializer};

/// The examples of the README, as tests.
#[cfg(doctest)]
#[doc = include_str!("../README.md")]
struct Readme;

/// A map or a set, or a reference to one, with serde's traits.
///
/// # Examples
///
/// ```
/// use intmap_proved::IntMap;
/// use intmap_proved_serde::Serde;
///
/// let Serde(map): Serde<IntMap<u64, bool>> = serde_json::from_str(r#"{"21": true}"#)?;
/// assert_eq!(map[21], true);
/// assert_eq!(serde_json::to_string(&Serde(&map))?, r#"{"21":true}"#);
/// # Ok::<(), serde_json::Error>(())
/// ```
#[derive(Clone, Copy, PartialEq, Eq, Default, Debug)]
pub struct Serde<T>(pub T);

/// Serializes a map as a map, or a set as a sequence, in iteration order. A field with
/// `#[serde(with = "intmap_proved_serde")]` calls it.
///
/// # Errors
///
/// Those of the serializer.
///
/// # Examples
///
/// ```
/// use intmap_proved::IntSet;
///
/// let mut text = Vec::new();
/// let set = IntSet::from([5u64, 0]);
/// intmap_proved_serde::serialize(&set, &mut serde_json::Serializer::new(&mut text))?;
/// assert_eq!(text, b"[0,5]");
/// # Ok::<(), serde_json::Error>(())
/// ```
pub fn serialize<T, S>(value: &T, serializer: S) -> Result<S::Ok, S::Error>
where
    for<'a> Serde<&'a T>: Serialize,
    S: Serializer,
{
    Serde(value).serialize(serializer)
}

/// Deserializes a map or a set. Pairs and members are inserted in the order of the input, and of
/// equal keys the last one's value stays. A field with `#[serde(with = "intmap_proved_serde")]`
/// calls it.
///
/// # Errors
///
/// Those of the deserializer, and one of its type with the text of a
/// [`Cause`](intmap_proved::Cause) if an allocation of the map or the set fails. What was read up
/// to there is dropped.
///
/// # Examples
///
/// ```
/// use intmap_proved::IntMap;
///
/// let mut text = serde_json::Deserializer::from_str(r#"{"21": "a", "4": "b", "21": "c"}"#);
/// let map: IntMap<u64, String> = intmap_proved_serde::deserialize(&mut text)?;
/// assert_eq!(map, IntMap::from([(21, "c".to_string()), (4, "b".to_string())]));
/// # Ok::<(), serde_json::Error>(())
/// ```
pub fn deserialize<'de, T, D>(deserializer: D) -> Result<T, D::Error>
where
    Serde<T>: Deserialize<'de>,
    D: Deserializer<'de>,
{
    let Serde(value) = Serde::deserialize(deserializer)?;
    Ok(value)
}
