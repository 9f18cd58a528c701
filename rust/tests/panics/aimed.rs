//! A panic at each place of a call in turn.
use crate::fuse::{Value, burn, is_whole, live, panics_at};
use intmap_proved::{Entry, IntMap, IntSet};

pub const KEYS: u64 = 40;

/// Keys whose low bits are zero, so that more keys share a slot at a larger shift.
fn map_of(shift: u32) -> IntMap<u64, Value> {
    (0..KEYS).map(|key| (key << shift, Value::new(key))).collect()
}

pub type Call = fn(&mut IntMap<u64, Value>);

pub const CALLS: &[(&str, Call)] = &[
    ("retain, closure and drops", |map| {
        map.retain(|_, value| {
            burn();
            value.0 % 2 == 0
        });
    }),
    ("retain, drops", |map| map.retain(|_, value| value.0 % 3 == 0)),
    ("retain_mut, closure and drops", |map| {
        map.retain_mut(|_, value| {
            burn();
            value.0 ^= 8;
            value.0 % 2 == 0
        });
    }),
    ("clear", |map| map.clear()),
    ("extract_if", |map| {
        let picked = map.extract_if(|_, value| {
            burn();
            value.0 % 2 == 0
        });
        picked.take(15).for_each(drop);
    }),
    ("hand_over", |map| {
        let keys: Vec<u64> = map.keys().copied().collect();
        for key in keys {
            if let Entry::Occupied(entry) = map.entry(key) {
                entry.hand_over(|value| {
                    burn();
                    if value.0 % 2 == 0 { Ok(value) } else { Err(value) }
                });
            }
        }
    }),
    ("drain", |map| map.drain().take(25).for_each(|_| burn())),
    ("clone", |map| drop(map.clone())),
    ("clone_from", |map| {
        let source = map.clone();
        map.clone_from(&source);
    }),
    ("extend", |map| {
        map.extend((0..KEYS).map(|key| {
            burn();
            (key * 3, Value::new(key + 100))
        }));
    }),
    ("into_iter", |map| {
        let taken = std::mem::take(map).into_iter();
        map.extend(taken.skip(10).inspect(|_| burn()));
    }),
];

/// Takes the map apart by its calls, and fills it again.
pub fn is_usable(mut map: IntMap<u64, Value>, after: &str) {
    let keys: Vec<u64> = map.keys().copied().collect();
    for key in keys {
        assert!(map.contains_key(key) && map.remove(key).is_some(), "{key} is present {after}");
        assert!(!map.contains_key(key), "{key} is absent {after}");
    }
    assert!(map.is_empty() && map.iter().next().is_none(), "it is empty {after}");
    for key in 0..KEYS {
        assert!(map.insert(key, Value::new(key)).is_none(), "{key} is new {after}");
    }
    is_whole(&map, after);
}

#[test]
fn a_panic_at_any_place_of_a_call_leaves_a_whole_map() {
    let mut panics = 0;
    for (name, call) in CALLS.iter().copied() {
        for shift in [0, 1, 2, 3, 5] {
            for number in 1.. {
                let mut map = map_of(shift);
                let after = format!("after {name}, shift {shift}, place {number}");
                let panicked = panics_at(number, || call(&mut map));
                is_whole(&map, &after);
                is_usable(map, &after);
                assert_eq!(live(), 0, "values that live {after}");
                if !panicked {
                    break;
                }
                panics += 1;
            }
        }
    }
    assert!(panics > 1000, "only {panics} panics");
}

#[test]
fn a_key_whose_value_panics_is_counted_by_into_keys() {
    for shift in [0, 5] {
        let mut keys = map_of(shift).into_keys();
        assert!(panics_at(4, || keys.by_ref().for_each(drop)), "the fourth value panics");
        assert_eq!(keys.len() as u64, KEYS - 4, "shift {shift}");
        assert_eq!(keys.count() as u64, KEYS - 4, "shift {shift}");
    }
}

#[test]
fn a_panic_of_the_closure_of_retain_loses_no_pair() {
    for shift in [0, 1, 2, 3, 5] {
        for number in 1..=KEYS {
            let mut map = map_of(shift);
            let panicked = panics_at(number, || {
                map.retain(|_, value| {
                    burn();
                    value.0 % 2 == 0
                });
            });
            let mut wanted = (0..KEYS).filter(|key| key % 2 == 0).map(|key| key << shift);
            assert!(panicked, "at place {number}");
            assert!(wanted.all(|key| map.contains_key(key)), "place {number}: {map:?}");
        }
    }
}

#[test]
fn a_panic_of_the_closure_of_hand_over_loses_that_pair_alone() {
    for shift in [0, 1, 2, 3, 5, 20] {
        for key in (0..KEYS).map(|key| key << shift) {
            let mut map = map_of(shift);
            let panicked = panics_at(1, || {
                let Entry::Occupied(entry) = map.entry(key) else { panic!("{key} is present") };
                entry.hand_over(|value| {
                    burn();
                    Ok::<Value, Value>(value)
                });
            });
            let after = format!("after a panic at {key}, shift {shift}");
            assert!(panicked, "{after}");
            assert!(!map.contains_key(key), "{after}");
            let mut others = (0..KEYS).map(|it| it << shift).filter(|it| *it != key);
            assert!(others.all(|it| map.contains_key(it)), "{after}");
            assert_eq!(map.len() as u64, KEYS - 1, "{after}");
            is_usable(map, &after);
            assert_eq!(live(), 0, "values that live {after}");
        }
    }
}

#[test]
fn a_panic_of_the_closure_of_a_set_leaves_a_whole_set() {
    for (shift, is_retained) in [0, 1, 2, 3, 5].into_iter().flat_map(|it| [(it, true), (it, false)])
    {
        for number in 1..=KEYS {
            let mut set: IntSet<u64> = (0..KEYS).map(|key| key << shift).collect();
            let panicked = panics_at(number, || {
                let is_even = |key: u64| {
                    burn();
                    (key >> shift) % 2 == 0
                };
                match is_retained {
                    true => set.retain(is_even),
                    false => set.extract_if(is_even).for_each(drop),
                }
            });
            assert!(panicked, "at place {number}");
            assert_eq!(set.iter().count(), set.len(), "{set:?}, place {number}");
            assert!(set.iter().all(|key| set.contains(*key)), "{set:?}, place {number}");
            let again: IntSet<u64> = set.iter().copied().collect();
            assert_eq!(again, set, "place {number}");
        }
    }
}
