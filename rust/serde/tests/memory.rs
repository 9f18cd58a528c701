//! Allocations while a map or a set is read: those that fail, and those that a false length asks
//! for.
use intmap_proved::{IntMap, IntSet};
use intmap_proved_serde::Serde;
use serde::Deserialize;
use serde::de::value::{Error, MapAccessDeserializer, SeqAccessDeserializer};
use serde::de::{DeserializeSeed, IntoDeserializer, MapAccess, SeqAccess};

#[allow(dead_code)]
#[path = "../../tests/refusals/allocator.rs"]
mod allocator;
use allocator::{bytes, failing_at};

/// Reads a text with each of its requests failing in turn. Returns how many there were.
fn failures<T: for<'de> Deserialize<'de>>(text: &str) -> u64 {
    for number in 1.. {
        let before = bytes();
        let (read, failed) = failing_at(number, || serde_json::from_str::<T>(text));
        if !failed {
            assert!(read.is_ok(), "without a failure");
            return number - 1;
        }
        let Err(error) = read else { panic!("request {number} failed, and no error came") };
        assert!(error.to_string().starts_with("out of memory at line 1"), "{error}");
        drop(error);
        assert_eq!(bytes(), before, "bytes left after request {number}");
    }
    unreachable!()
}

#[test]
fn a_failed_allocation_is_an_error() {
    let pairs: Vec<String> = (0..100).map(|key| format!("\"{}\":{key}", key * 8)).collect();
    let requests = failures::<Serde<IntMap<u64, u64>>>(&format!("{{{}}}", pairs.join(",")));
    assert!(requests > 20, "only {requests} requests of a map");
    let members: Vec<String> = (0..100).map(|key| (key * 8).to_string()).collect();
    let requests = failures::<Serde<IntSet<u64>>>(&format!("[{}]", members.join(",")));
    assert!(requests > 20, "only {requests} requests of a set");
}

/// An input that claims a length, and has another one.
struct Claims {
    claimed: usize,
    left: u64,
}

impl Claims {
    fn next(&mut self) -> Option<u64> {
        self.left = self.left.checked_sub(1)?;
        Some(self.left)
    }
}

impl<'de> MapAccess<'de> for Claims {
    type Error = Error;

    fn next_key_seed<S: DeserializeSeed<'de>>(
        &mut self,
        key: S,
    ) -> Result<Option<S::Value>, Error> {
        self.next().map(|it| key.deserialize(it.into_deserializer())).transpose()
    }

    fn next_value_seed<S: DeserializeSeed<'de>>(&mut self, value: S) -> Result<S::Value, Error> {
        value.deserialize(self.left.into_deserializer())
    }

    fn size_hint(&self) -> Option<usize> {
        Some(self.claimed)
    }
}

impl<'de> SeqAccess<'de> for Claims {
    type Error = Error;

    fn next_element_seed<S: DeserializeSeed<'de>>(
        &mut self,
        member: S,
    ) -> Result<Option<S::Value>, Error> {
        self.next().map(|it| member.deserialize(it.into_deserializer())).transpose()
    }

    fn size_hint(&self) -> Option<usize> {
        Some(self.claimed)
    }
}

/// A map and a set that are read from an input that claims a length.
fn read<V: for<'de> Deserialize<'de>>(claimed: usize, left: u64) -> (IntMap<u64, V>, IntSet<u64>) {
    let pairs = MapAccessDeserializer::new(Claims { claimed, left });
    let map: IntMap<u64, V> = intmap_proved_serde::deserialize(pairs).expect("it is a map");
    let members = SeqAccessDeserializer::new(Claims { claimed, left });
    let set: IntSet<u64> = intmap_proved_serde::deserialize(members).expect("it is a set");
    assert_eq!((map.len() as u64, set.len() as u64), (left, left), "of {claimed} claimed");
    (map, set)
}

/// A value of 4096 bytes.
#[derive(Deserialize)]
#[serde(from = "u64")]
struct Large(#[allow(dead_code)] [u64; 512]);

impl From<u64> for Large {
    fn from(number: u64) -> Large {
        Large([number; 512])
    }
}

#[test]
fn a_claimed_length_asks_for_little_memory() {
    for claimed in [0, 1, 100, 1_000_000, usize::MAX] {
        let before = bytes();
        let (map, set) = read::<Large>(claimed, 3);
        assert!(bytes() - before < 4 << 20, "{} bytes of {claimed} claimed", bytes() - before);
        drop((map, set));
        assert_eq!(bytes(), before, "bytes left of {claimed} claimed");
    }
}

#[test]
fn an_honest_length_is_the_capacity() {
    for (length, slots) in [(3, 4), (100, 128), (100_000, 131_072)] {
        let (map, set) = read::<u64>(length as usize, length);
        assert_eq!((map.capacity(), set.capacity()), (slots, slots), "of {length} pairs");
    }
}
