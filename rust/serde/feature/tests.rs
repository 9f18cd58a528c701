//! The tests of the crate for serde, over the feature `serde`.
mod memory;
mod texts;

/// What that crate has, by the traits that maps and sets have of their own.
mod plain {
    use serde::{Deserialize, Deserializer, Serialize, Serializer};

    #[derive(Serialize, Deserialize, PartialEq, Debug)]
    #[serde(transparent)]
    pub struct Serde<T>(pub T);

    pub fn serialize<T: Serialize, S: Serializer>(
        value: &T,
        serializer: S,
    ) -> Result<S::Ok, S::Error> {
        value.serialize(serializer)
    }

    pub fn deserialize<'de, T: Deserialize<'de>, D: Deserializer<'de>>(
        deserializer: D,
    ) -> Result<T, D::Error> {
        T::deserialize(deserializer)
    }
}
