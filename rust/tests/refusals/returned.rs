//! What a failed call returns to its caller.
use crate::allocator::failing_at;
use intmap_proved::{Cause, Entry, IntMap, IntSet, Refused, RefusedPair};

fn texts(keys: u64) -> IntMap<u64, String> {
    (0..keys).map(|key| (key, key.to_string())).collect()
}

type Insertion = fn(&mut IntMap<u64, String>, String) -> Result<(), Refused<String>>;

/// Each inserts the key 25.
const INSERTIONS: &[(&str, Insertion)] = &[
    ("insert", |map, value| map.try_insert(25, value).map(drop)),
    ("insert_checked", |map, value| map.try_insert_checked(25, value).map(drop)),
    ("entry", |map, value| map.entry(25).try_or_insert(value).map(drop)),
    ("entry with", |map, value| map.entry(25).try_or_insert_with(|| value).map(drop)),
    ("entry with key", |map, value| map.entry(25).try_or_insert_with_key(|_| value).map(drop)),
    ("entry with a result", |map, value| {
        map.entry(25).or_try_insert_with(|| Ok::<String, Refused<String>>(value)).map(drop)
    }),
    ("insert_entry", |map, value| map.entry(25).try_insert_entry(value).map(drop)),
    ("vacant entry", |map, value| match map.entry(25) {
        Entry::Vacant(entry) => entry.try_insert(value).map(drop),
        Entry::Occupied(_) => panic!("25 is absent"),
    }),
];

type Made = IntMap<u64, String>;
type Form = (&'static str, fn(&[u64]) -> Made);

fn filled(mut map: Made, keys: &[u64]) -> Made {
    map.extend(keys.iter().map(|key| (*key, key.to_string())));
    map
}

/// How a map of keys in order is made. It has room from the start, or it grows by insertions, or
/// the first slot has a second pair.
const FORMS: &[Form] = &[
    ("with room", |keys| filled(IntMap::with_capacity(16), keys)),
    ("grown", |keys| filled(IntMap::new(), keys)),
    ("with a second pair", |keys| filled(filled(IntMap::new(), &keys[..keys.len() - 1]), &[16])),
];

/// Makes the insertion with each of its requests failing in turn, and returns how many there were.
fn returned_each_time(insert: Insertion, make: impl Fn() -> IntMap<u64, String>, of: &str) -> u64 {
    for number in 1.. {
        let mut map = make();
        let (capacity, order) = (map.capacity(), format!("{map:?}"));
        let value = String::from("a value");
        let (returned, failed) = failing_at(number, || insert(&mut map, value));
        if !failed {
            assert!(returned.is_ok() && map.contains_key(25), "{of}");
            return number - 1;
        }
        let Err(Refused { value, cause }) = returned else { panic!("{of} did not fail") };
        assert_eq!((value.as_str(), cause), ("a value", Cause::Memory), "{of}, request {number}");
        assert_eq!((map.capacity(), format!("{map:?}")), (capacity, order), "{of}, {number}");
        assert!(insert(&mut map, value).is_ok(), "{of} once more, request {number}");
        assert_eq!(map.get(25).map(String::as_str), Some("a value"), "{of}, request {number}");
    }
    unreachable!()
}

#[test]
fn a_failed_insertion_returns_its_value() {
    // the first puts a second pair into a slot, the second makes the map grow
    let beside: Vec<u64> = (0..13).collect();
    let grows: Vec<u64> = (0..15).filter(|key| *key != 9).collect();
    for (name, insert) in INSERTIONS.iter().copied() {
        assert_eq!(returned_each_time(insert, || texts(4), name), 1, "{name}, 4 keys");
        for ((form, make), (second, growth)) in FORMS.iter().zip([(1, 2), (0, 2), (0, 3)]) {
            let name = format!("{name}, {form}");
            let requests = returned_each_time(insert, || make(&beside), &name);
            assert_eq!(requests, second, "requests of {name}, for a second pair");
            let requests = returned_each_time(insert, || make(&grows), &name);
            assert_eq!(requests, growth, "requests of {name}, at a growth");
        }
    }
}

#[test]
fn a_failed_extension_returns_its_pair_and_how_many_were_inserted() {
    for number in 1..20 {
        let mut map: IntMap<u64, u64> = (0..6).map(|key| (key, key)).collect();
        let pairs = (6..100).map(|key| (key, key + 1));
        let (returned, failed) = failing_at(number, || map.try_extend(pairs));
        let Err(RefusedPair { key, value, applied, cause }) = returned else {
            assert!(!failed, "request {number}");
            continue;
        };
        assert_eq!((key, value, cause), (6 + applied as u64, 7 + applied as u64, Cause::Memory));
        assert_eq!(map.len(), 6 + applied, "request {number}");
        assert!(map.contains_key(key - 1) && !map.contains_key(key), "request {number}");
    }
}

#[test]
fn a_failed_extension_of_a_set_returns_its_key_and_how_many_were_inserted() {
    for number in 1..20 {
        let mut set: IntSet<u64> = (0..6).collect();
        let (returned, failed) = failing_at(number, || set.try_extend(6..100));
        let Err(RefusedPair { key, value: (), applied, cause }) = returned else {
            assert!(!failed, "request {number}");
            continue;
        };
        assert_eq!((key, cause), (6 + applied as u64, Cause::Memory));
        assert_eq!(set.len(), 6 + applied, "request {number}");
        assert!(set.contains(key - 1) && !set.contains(key), "request {number}");
    }
}

#[test]
fn a_present_key_gets_its_value_without_memory() {
    let mut map = texts(4);
    let before: Vec<u64> = map.keys().copied().collect();
    let value = String::from("new");
    let (returned, failed) = failing_at(1, || map.try_insert(0, value));
    assert!(!failed, "no request was made");
    assert_eq!(returned.expect("it did not fail").as_deref(), Some("0"));
    assert_eq!((map.get(0).map(String::as_str), map.len()), (Some("new"), 4));
    assert!(map.keys().copied().eq(before), "each key has a slot of its own");
}
