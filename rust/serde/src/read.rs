//! How maps and sets are read: by insertions in the order of the input.
use core::fmt::{self, Formatter};
use core::marker::PhantomData;
use intmap_proved::{Cause, IntKey, IntMap, IntSet};
use serde::de::{Error, MapAccess, SeqAccess, Visitor};
use serde::{Deserialize, Deserializer};

/// In bytes, about what is allocated at most for the length that an input claims, before the number
/// of slots is rounded up to a power of two.
const CLAIMED: usize = 1 << 20;

/// How many slots are allocated for a claimed length. Each takes a pair and a word.
fn capacity_for<P>(claimed: Option<usize>) -> usize {
    claimed.unwrap_or(0).min(CLAIMED / (size_of::<P>() + size_of::<usize>()))
}

/// The error of a deserializer for a failed insertion or allocation.
fn refused<E: Error>(why: impl Into<Cause>) -> E {
    E::custom(why.into())
}

/// Inserts the pairs of a map as they come.
struct Pairs<K, V>(PhantomData<(K, V)>);

impl<'de, K: IntKey + Deserialize<'de>, V: Deserialize<'de>> Visitor<'de> for Pairs<K, V> {
    type Value = IntMap<K, V>;

    fn expecting(&self, f: &mut Formatter<'_>) -> fmt::Result {
        f.write_str("a map with integer keys")
    }

    fn visit_map<A: MapAccess<'de>>(self, mut pairs: A) -> Result<IntMap<K, V>, A::Error> {
        let capacity = capacity_for::<(K, V)>(pairs.size_hint());
        let mut map = IntMap::try_with_capacity(capacity).map_err(refused)?;
        while let Some((key, value)) = pairs.next_entry()? {
            map.try_insert(key, value).map_err(refused)?;
        }
        Ok(map)
    }
}

/// Inserts the members of a set as they come.
struct Members<K>(PhantomData<K>);

impl<'de, K: IntKey + Deserialize<'de>> Visitor<'de> for Members<K> {
    type Value = IntSet<K>;

    fn expecting(&self, f: &mut Formatter<'_>) -> fmt::Result {
        f.write_str("a sequence of integers")
    }

    fn visit_seq<A: SeqAccess<'de>>(self, mut members: A) -> Result<IntSet<K>, A::Error> {
        let capacity = capacity_for::<K>(members.size_hint());
        let mut set = IntSet::try_with_capacity(capacity).map_err(refused)?;
        while let Some(member) = members.next_element()? {
            set.try_insert(member).map_err(refused)?;
        }
        Ok(set)
    }
}

/// Reads a map.
pub(super) fn map<'de, K, V, D>(deserializer: D) -> Result<IntMap<K, V>, D::Error>
where
    K: IntKey + Deserialize<'de>,
    V: Deserialize<'de>,
    D: Deserializer<'de>,
{
    deserializer.deserialize_map(Pairs(PhantomData))
}

/// Reads a set.
pub(super) fn set<'de, K, D>(deserializer: D) -> Result<IntSet<K>, D::Error>
where
    K: IntKey + Deserialize<'de>,
    D: Deserializer<'de>,
{
    deserializer.deserialize_seq(Members(PhantomData))
}
