//! The traits of wrapped maps and sets.
use crate::{Serde, read};
use intmap_proved::{IntKey, IntMap, IntSet};
use serde::{Deserialize, Deserializer, Serialize, Serializer};

impl<K: IntKey + Serialize, V: Serialize> Serialize for Serde<&IntMap<K, V>> {
    fn serialize<S: Serializer>(&self, serializer: S) -> Result<S::Ok, S::Error> {
        serializer.collect_map(self.0)
    }
}

impl<K: IntKey + Serialize, V: Serialize> Serialize for Serde<IntMap<K, V>> {
    fn serialize<S: Serializer>(&self, serializer: S) -> Result<S::Ok, S::Error> {
        Serde(&self.0).serialize(serializer)
    }
}

impl<'de, K: IntKey + Deserialize<'de>, V: Deserialize<'de>> Deserialize<'de>
    for Serde<IntMap<K, V>>
{
    fn deserialize<D: Deserializer<'de>>(deserializer: D) -> Result<Self, D::Error> {
        read::map(deserializer).map(Serde)
    }
}

impl<K: IntKey + Serialize> Serialize for Serde<&IntSet<K>> {
    fn serialize<S: Serializer>(&self, serializer: S) -> Result<S::Ok, S::Error> {
        serializer.collect_seq(self.0)
    }
}

impl<K: IntKey + Serialize> Serialize for Serde<IntSet<K>> {
    fn serialize<S: Serializer>(&self, serializer: S) -> Result<S::Ok, S::Error> {
        Serde(&self.0).serialize(serializer)
    }
}

impl<'de, K: IntKey + Deserialize<'de>> Deserialize<'de> for Serde<IntSet<K>> {
    fn deserialize<D: Deserializer<'de>>(deserializer: D) -> Result<Self, D::Error> {
        read::set(deserializer).map(Serde)
    }
}
