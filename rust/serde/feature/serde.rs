// the module `serde` of `intmap_proved` as `tools/release --registry` writes it for a registry
//! [serde](https://serde.rs) for maps and sets, with the feature `serde`.
//!
//! ```
//! use intmap_proved::{IntMap, IntSet};
//! use serde::{Deserialize, Serialize};
//!
//! #[derive(Serialize, Deserialize)]
//! struct Stock {
//!     prices: IntMap<u64, u32>,
//!     sold_out: IntSet<u64>,
//! }
//!
//! let stock: Stock = serde_json::from_str(r#"{"prices": {"7": 250, "4": 120}, "sold_out": [4]}"#)?;
//! assert_eq!(stock.prices[7], 250);
//! assert_eq!(serde_json::to_string(&stock.prices)?, r#"{"4":120,"7":250}"#);
//! # Ok::<(), serde_json::Error>(())
//! ```
//!
//! A map is serialized as a map and a set as a sequence, in iteration order. Both are deserialized
//! by insertions in the order of the input, and of equal keys the last one's value stays. So a map
//! that was read is equal to the one that was written, but its capacity and its order may differ.
//! This is tested, not proved.
//!
//! # Failed allocations
//!
//! If an allocation of the map or the set fails, the deserializer returns an error with the text of
//! the [`Cause`](intmap_proved::Cause), and what was read up to there is dropped. What a
//! deserializer allocates itself, such as its error, is its own concern. An input that claims a
//! great length makes a map request some 2 MiB at most. A longer map grows as its pairs come.
//!
//! # Texts from strangers
//!
//! Whoever writes a text can choose keys that share one slot, such as multiples of 2^32. Reading
//! *n* of them takes time in the square of *n*: a text of 1 MB took more than a second.
//! [`int_key!`](intmap_proved::int_key) declares types of keys that are scrambled by a secret, and
//! may derive serde's traits. Or read such texts into a std map.
//!
//! ```
//! use intmap_proved::{IntMap, int_key};
//! use serde::{Deserialize, Serialize};
//! use std::hash::{BuildHasher, RandomState};
//! use std::sync::LazyLock;
//!
//! static SECRET: LazyLock<u64> = LazyLock::new(|| RandomState::new().hash_one(0));
//!
//! int_key! {
//!     #[derive(Serialize, Deserialize)]
//!     struct Visitor(u64) scrambled by *SECRET;
//! }
//!
//! let visits: IntMap<Visitor, u32> = serde_json::from_str(r#"{"4294967296": 2}"#)?;
//! assert_eq!(visits[Visitor(1 << 32)], 2);
//! # Ok::<(), serde_json::Error>(())
//! ```
//!
//! The text has the keys unscrambled, but their order depends on the secret. So don't show the text
//! to strangers, who may learn the secret from it: [`scramble`](intmap_proved::scramble) is no
//! cipher.
mod read;

use intmap_proved::{IntKey, IntMap, IntSet};
use serde::{Deserialize, Deserializer, Serialize, Serializer};

/// Writes the pairs as a map, in iteration order.
impl<K: IntKey + Serialize, V: Serialize> Serialize for IntMap<K, V> {
    fn serialize<S: Serializer>(&self, serializer: S) -> Result<S::Ok, S::Error> {
        serializer.collect_map(self)
    }
}

/// Inserts the pairs of a map in turn. A failed allocation is an error. The module
/// [`serde`](crate::serde) says what strangers' keys can do.
impl<'de, K: IntKey + Deserialize<'de>, V: Deserialize<'de>> Deserialize<'de> for IntMap<K, V> {
    fn deserialize<D: Deserializer<'de>>(deserializer: D) -> Result<Self, D::Error> {
        read::map(deserializer)
    }
}

/// Writes the members as a sequence, in iteration order.
impl<K: IntKey + Serialize> Serialize for IntSet<K> {
    fn serialize<S: Serializer>(&self, serializer: S) -> Result<S::Ok, S::Error> {
        serializer.collect_seq(self)
    }
}

/// Inserts the members of a sequence in turn. A failed allocation is an error. The module
/// [`serde`](crate::serde) says what strangers' keys can do.
impl<'de, K: IntKey + Deserialize<'de>> Deserialize<'de> for IntSet<K> {
    fn deserialize<D: Deserializer<'de>>(deserializer: D) -> Result<Self, D::Error> {
        read::set(deserializer)
    }
}
