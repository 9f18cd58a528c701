//! What the tests of Rust's `intmap` 2.0.0 check, at their size, by the names of that crate.
use intmap_proved::original::{Entry, IntMap};
use std::ops::Range;

const MANY: u64 = 20_000;

/// Numbers far apart, all different.
fn scattered() -> impl Iterator<Item = u64> {
    let key = |number: u64| number.wrapping_mul(6_364_136_223_846_793_005);
    (0..MANY).map(move |number| key(number).wrapping_add(1_442_695_040_888_963_407))
}

fn squares(numbers: impl Iterator<Item = u64>) -> IntMap<u64> {
    numbers.map(|it| (it, it * it)).collect()
}

fn alike(numbers: Range<u64>) -> IntMap<u64> {
    numbers.map(|it| (it, it)).collect()
}

#[test]
fn scattered_keys_are_inserted_found_and_removed() {
    let mut map = IntMap::new();
    assert!(scattered().all(|key| map.insert_checked(key, key)));
    assert!(map.assert_count());
    assert!(scattered().all(|key| map.get(key) == Some(&key) && map.contains_key(key)));
    assert_eq!(map.len(), 20_000);
    assert!(scattered().all(|key| map.remove(key) == Some(key)));
    assert!(map.is_empty() && map.assert_count());
}

#[test]
fn a_present_key_gets_a_new_value_or_keeps_its_own() {
    let mut map = IntMap::new();
    for key in 0..MANY {
        let text = format!("item: {key}");
        assert_eq!(map.insert(key, text.clone()), None);
        assert_eq!(map.insert(key, text.clone()), Some(text.clone()));
        assert!(!map.insert_checked(key, text));
    }
    assert_eq!(map.len(), 20_000);
}

#[test]
fn removed_keys_are_absent() {
    let mut map = alike(0..MANY);
    for key in 0..MANY {
        assert_eq!(map.get(key), Some(&key));
        assert_eq!(map.get_mut(key).copied(), Some(key));
        assert_eq!(map.get(key + MANY), None);
        assert_eq!(map.get_mut(key + MANY), None);
    }
    for key in 0..MANY {
        assert_eq!(map.remove(key), Some(key));
        assert!(!map.contains_key(key));
        assert_eq!(map.remove(key), None);
    }
    assert!(map.is_empty());
}

#[test]
fn dense_keys_have_a_slot_each() {
    let map = alike(0..MANY);
    assert_eq!((map.load(), map.capacity(), map.load_rate() as u64), (20_000, 32_768, 61));
    assert!(map.collisions().is_empty());
}

#[test]
fn pairs_that_are_kept_stay() {
    let mut map = alike(0..MANY);
    map.retain(|key, _| key > 10_000);
    assert_eq!(map.len(), 9_999);
    assert!((0..MANY).all(|key| map.contains_key(key) == (key > 10_000)));
}

#[test]
fn iterators_come_to_each_pair_once() {
    let mut map = alike(0..MANY);
    map.iter_mut().for_each(|(_, value)| *value += 1);
    map.values_mut().for_each(|it| *it += 1);
    assert!(map.iter().all(|(key, value)| key + 2 == *value));
    assert_eq!((map.iter().count(), map.keys().count()), (20_000, 20_000));
    assert_eq!(map.keys().sum::<u64>() + 2 * MANY, map.values().sum());
    assert_eq!(map.clone().into_iter().filter(|(key, value)| key + 2 == *value).count(), 20_000);
    assert_eq!(map.drain().filter(|(key, value)| key + 2 == *value).count(), 20_000);
    assert_eq!(map.len(), 0);
}

#[test]
fn a_map_is_extended_by_another() {
    let mut map = alike(0..MANY);
    map.extend(alike(MANY..2 * MANY));
    assert_eq!(map.len(), 40_000);
    assert!(map.into_iter().all(|(key, value)| key == value));
}

#[test]
fn equality_looks_past_the_order() {
    let (one, other) = (squares(0..5_000), squares((0..5_000).rev()));
    assert_eq!(one, other);
    assert_eq!(other, one);
    let (one, other) = (squares(0..10), squares((0..5).rev()));
    assert_eq!((one.capacity(), other.capacity()), (16, 8));
    assert_ne!(one, other);
    assert_ne!(other, one);
    let mut changed = squares(0..10);
    changed.insert(3, 0);
    assert_ne!(one, changed);
    assert_ne!(changed, one);
}

#[test]
fn entries_are_filled_written_and_emptied() {
    let mut map = IntMap::new();
    for key in 0..MANY {
        match map.entry(key) {
            Entry::Vacant(entry) => assert_eq!(*entry.insert(key), key),
            Entry::Occupied(_) => panic!("{key} is present"),
        }
    }
    for key in 0..MANY {
        let Entry::Occupied(mut entry) = map.entry(key) else { panic!("{key} is absent") };
        assert_eq!((*entry.get(), *entry.get_mut()), (key, key));
        assert_eq!(entry.insert(MANY + key), key);
        assert_eq!(*entry.into_mut(), MANY + key);
    }
    for key in 0..MANY {
        let Entry::Occupied(entry) = map.entry(key) else { panic!("{key} is absent") };
        assert_eq!(entry.remove(), MANY + key);
    }
    assert_eq!(map.len(), 0);
}

#[test]
fn a_high_load_factor_lets_keys_share_slots() {
    let mut map = IntMap::new();
    map.set_load_factor(2.0);
    map.extend((0..16).map(|it| (it, it)));
    assert_eq!(format!("{:?}", map.collisions()), "{2: 8}");
}
