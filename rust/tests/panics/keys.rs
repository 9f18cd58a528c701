//! A panic in each call of a key's number in turn, of keys that don't lie.
use crate::fuse::{burn, panics_at};
use intmap_proved::{Cause, Entry, IntKey, IntMap, IntSet, VacantEntry};
use std::rc::Rc;

/// A key whose number is a place that may panic.
#[derive(Clone, Copy, PartialEq, Eq, Debug)]
pub struct Key(pub u64);

impl IntKey for Key {
    fn number(&self) -> u64 {
        burn();
        self.0
    }
}

pub type Map = IntMap<Key, Rc<()>>;
type Call = fn(&mut Map, &Rc<()>);

fn vacant(map: &mut Map, key: u64) -> VacantEntry<'_, Key, Rc<()>> {
    match map.entry(Key(key)) {
        Entry::Vacant(entry) => entry,
        Entry::Occupied(_) => panic!("{key} is absent"),
    }
}

/// How many keys there are before, and the call. At 14 keys the next insertion makes the map grow.
/// The slot of 99 has a pair then, the slot of 12 has none.
const CALLS: &[(&str, u64, Call)] = &[
    ("insert", 12, |map, value| drop(map.insert(Key(1 << 20), value.clone()))),
    ("insert, empty slot", 12, |map, value| drop(map.insert(Key(12), value.clone()))),
    ("insert and grow", 14, |map, value| drop(map.insert(Key(1 << 20), value.clone()))),
    ("try_insert and grow", 14, |map, value| {
        assert!(map.try_insert(Key(99), value.clone()).is_ok());
    }),
    ("insert again", 14, |map, value| drop(map.insert(Key(64), value.clone()))),
    ("insert_checked and grow", 14, |map, value| {
        assert!(map.insert_checked(Key(99), value.clone()));
    }),
    ("try_insert_checked and grow", 14, |map, value| {
        assert!(map.try_insert_checked(Key(99), value.clone()).is_ok());
    }),
    ("extend and grow", 14, |map, value| {
        map.extend((0..30).map(|key| (Key(key * 5), value.clone())));
    }),
    ("reserve", 14, |map, _| map.reserve(1000)),
    ("reserve_pairs", 14, |map, _| map.reserve_pairs(1000)),
    ("reserve_insertions", 14, |map, _| map.reserve_insertions(1000)),
    ("set_load_factor", 14, |map, _| map.set_load_factor(0.1)),
    ("get", 12, |map, _| drop(map.get(Key(64)).cloned())),
    ("remove", 12, |map, _| drop(map.remove(Key(64)))),
    ("an entry's or_insert", 12, |map, value| _ = map.entry(Key(99)).or_insert(value.clone())),
    ("or_insert, empty slot", 12, |map, value| _ = map.entry(Key(12)).or_insert(value.clone())),
    ("or_insert and grow", 14, |map, value| _ = map.entry(Key(99)).or_insert(value.clone())),
    ("or_insert_with, empty slot", 12, |map, value| {
        map.entry(Key(12)).or_insert_with(|| value.clone());
    }),
    ("or_insert_with and grow", 14, |map, value| {
        map.entry(Key(99)).or_insert_with(|| value.clone());
    }),
    ("or_insert_with_key and grow", 14, |map, value| {
        map.entry(Key(99)).or_insert_with_key(|key| {
            key.number();
            value.clone()
        });
    }),
    ("or_default and grow", 14, |map, _| _ = map.entry(Key(99)).or_default()),
    ("or_try_insert_with and grow", 14, |map, value| {
        let made = map.entry(Key(99)).or_try_insert_with(|| Ok::<_, Cause>(value.clone()));
        assert!(made.is_ok());
    }),
    ("insert_entry, empty slot", 12, |map, value| {
        map.entry(Key(12)).insert_entry(value.clone());
    }),
    ("insert_entry and grow", 14, |map, value| {
        map.entry(Key(99)).insert_entry(value.clone());
    }),
    ("insert_entry of a vacant entry, empty slot", 12, |map, value| {
        vacant(map, 12).insert_entry(value.clone());
    }),
    ("insert_entry of a vacant entry and grow", 14, |map, value| {
        vacant(map, 99).insert_entry(value.clone());
    }),
    ("insert of a vacant entry, empty slot", 12, |map, value| {
        vacant(map, 12).insert(value.clone());
    }),
    ("insert of a vacant entry and grow", 14, |map, value| {
        vacant(map, 99).insert(value.clone());
    }),
    ("a removed entry", 12, |map, _| {
        if let Entry::Occupied(entry) = map.entry(Key(64)) {
            entry.remove();
        }
    }),
    ("clone", 12, |map, _| drop(map.clone())),
    ("==", 12, |map, _| assert!(map.eq(&map))),
    ("retain", 12, |map, _| map.retain(|key, _| key.number() == key.0)),
];

/// Keys of which half share a slot.
fn map_of(keys: u64, value: &Rc<()>) -> Map {
    let keys = (0..keys / 2).chain((1..=keys / 2).map(|key| key << 6)).map(Key);
    keys.map(|key| (key, value.clone())).collect()
}

#[track_caller]
pub fn is_whole(map: &Map, value: &Rc<()>, after: &str) {
    assert!(map.assert_count(), "the count {after}");
    assert_eq!(map.iter().count(), map.len(), "pairs {after}");
    assert!(map.keys().all(|key| map.contains_key(*key)), "keys {after}: {map:?}");
    let shared: u64 = map.collisions().iter().map(|(pairs, slots)| (pairs - 1) * slots).sum();
    assert_eq!(shared + map.load(), map.len() as u64, "slots {after}");
    let held = map.values().filter(|it| Rc::ptr_eq(it, value)).count();
    assert_eq!(Rc::strong_count(value), 1 + held, "values {after}");
}

/// Inserts keys of all slots, and finds each.
#[track_caller]
pub fn is_usable(mut map: Map, value: &Rc<()>, after: &str) {
    for key in (0..64).map(Key) {
        map.insert(key, value.clone());
        assert!(map.contains_key(key), "{key:?} is present {after}");
    }
    is_whole(&map, value, after);
}

#[test]
fn a_panic_of_a_key_leaves_a_whole_map_and_each_pair() {
    let (value, mut panics) = (Rc::new(()), 0);
    for (name, keys, call) in CALLS.iter().copied() {
        for place in 1.. {
            let mut map = map_of(keys, &value);
            let before: Vec<Key> = map.keys().copied().collect();
            let panicked = panics_at(place, || call(&mut map, &value));
            let after = format!("after {name}, place {place}");
            is_whole(&map, &value, &after);
            let lost = before.iter().filter(|key| !map.contains_key(**key)).count();
            is_usable(map, &value, &after);
            if !panicked {
                break;
            }
            assert_eq!(lost, 0, "pairs lost {after}");
            panics += 1;
        }
    }
    assert!(panics > 200, "only {panics} panics");
}

type SetCall = fn(&mut IntSet<Key>);

const SET_CALLS: &[(&str, SetCall)] = &[
    ("insert and grow", |set| assert!(set.insert(Key(99)))),
    ("try_insert and grow", |set| assert!(set.try_insert(Key(99)).is_ok())),
    ("remove", |set| assert!(set.remove(Key(64)))),
    ("extend and grow", |set| set.extend((0..30).map(|key| Key(key * 5)))),
    ("reserve", |set| set.reserve(1000)),
    ("set_load_factor", |set| set.set_load_factor(0.1)),
    ("retain", |set| set.retain(|key| key.number() == key.0)),
];

#[test]
fn a_panic_of_a_key_leaves_a_whole_set() {
    let mut panics = 0;
    for (name, call) in SET_CALLS.iter().copied() {
        for place in 1.. {
            let mut set: IntSet<Key> = map_of(14, &Rc::new(())).into_keys().collect();
            let panicked = panics_at(place, || call(&mut set));
            assert_eq!(set.iter().count(), set.len(), "after {name}, place {place}");
            assert!(set.iter().all(|key| set.contains(*key)), "after {name}, place {place}");
            if !panicked {
                break;
            }
            panics += 1;
        }
    }
    assert!(panics > 100, "only {panics} panics");
}
