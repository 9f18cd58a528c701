//! A panic in calls on slots of one pair each, and where a second pair comes to one of them. The
//! map had room from the start, or grew, or has a node without a pair.
use crate::aimed::{self, KEYS};
use crate::fuse::{Value, burn, is_whole, live, panics_at};
use crate::keys::{self, Key};
use intmap_proved::{Entry, IntMap};
use std::rc::Rc;

const SLOTS: u64 = 64;

type Made = IntMap<u64, Value>;
type Form = (&'static str, fn() -> Made);

fn filled(mut map: Made) -> Made {
    map.extend((0..KEYS).map(|key| (key, Value::new(key))));
    let sizes = (map.capacity() as u64, map.load());
    assert_eq!(sizes, (SLOTS, KEYS), "each key has a slot of its own");
    map
}

/// How a map of keys in order is made: with room for them, without, and so that a second pair has
/// come and gone.
const FORMS: &[Form] = &[
    ("with room", || filled(IntMap::with_capacity(SLOTS as usize))),
    ("grown", || filled(IntMap::new())),
    ("with a free node", || {
        let mut map = filled(IntMap::new());
        map.insert(SLOTS * 9, Value::new(9));
        drop(map.remove(SLOTS * 9));
        map
    }),
];

#[test]
fn a_panic_at_any_place_of_a_call_leaves_a_whole_map_of_keys_in_order() {
    let mut panics = 0;
    for ((name, call), (form, make)) in
        aimed::CALLS.iter().flat_map(|it| FORMS.iter().map(move |form| (it, form)))
    {
        for has_second in [false, true] {
            for number in 1.. {
                let mut map = make();
                if has_second {
                    map.insert(7 + SLOTS, Value::new(7));
                }
                let after = format!("after {name}, {form}, {has_second}, place {number}");
                let panicked = panics_at(number, || call(&mut map));
                is_whole(&map, &after);
                aimed::is_usable(map, &after);
                assert_eq!(live(), 0, "values that live {after}");
                if !panicked {
                    break;
                }
                panics += 1;
            }
        }
    }
    assert!(panics > 900, "only {panics} panics");
}

#[test]
fn a_panic_of_the_closure_of_a_call_on_all_loses_no_pair_of_keys_in_order() {
    type Call = fn(&mut Made);
    const CALLS: &[Call] = &[
        |map| map.retain(|_, _| burnt()),
        |map| assert_eq!(map.extract_if(|_, _| !burnt()).count(), 0),
        |map| map.for_each_mut(|_, _| burn()),
        |map| map.values_mut().for_each(|_| burn()),
        |map| map.iter_mut().for_each(|_| burn()),
    ];
    for ((form, make), call) in FORMS.iter().flat_map(|it| CALLS.iter().map(move |call| (it, call)))
    {
        for number in 1..=KEYS {
            let mut map = make();
            assert!(panics_at(number, || call(&mut map)), "{form}, at place {number}");
            is_whole(&map, &format!("after place {number}, {form}"));
            assert!(map.keys().copied().eq(make().into_keys()), "place {number}: {map:?}");
        }
    }
}

/// Whether a place that may panic hasn't.
fn burnt() -> bool {
    burn();
    true
}

#[test]
fn a_panic_of_a_drop_in_a_call_on_one_key_leaves_a_whole_map_of_keys_in_order() {
    type Call = fn(&mut Made);
    const CALLS: &[(&str, Call)] = &[
        ("insert again", |map| drop(map.insert(3, Value::new(1)))),
        ("insert_checked again", |map| _ = map.insert_checked(3, Value::new(1))),
        ("insert a second pair", |map| drop(map.insert(3 + SLOTS, Value::new(1)))),
        ("remove", |map| drop(map.remove(3))),
        ("write", |map| *map.get_mut(3).expect("3 is present") = Value::new(1)),
        ("hand_over", |map| {
            let Entry::Occupied(entry) = map.entry(3) else { panic!("3 is present") };
            entry.hand_over(Ok::<Value, Value>);
        }),
    ];
    for ((name, call), (form, make)) in
        CALLS.iter().flat_map(|it| FORMS.iter().map(move |form| (it, form)))
    {
        for number in 1..4 {
            let mut map = make();
            panics_at(number, || call(&mut map));
            let after = format!("after {name}, {form}, place {number}");
            is_whole(&map, &after);
            let mut others = (0..KEYS).filter(|key| *key != 3);
            assert!(others.all(|key| map.contains_key(key)), "{after}");
            aimed::is_usable(map, &after);
            assert_eq!(live(), 0, "values that live {after}");
        }
    }
}

/// Keys that have slots of their own among 16, and move to all parts of a map that grows.
fn apart(value: &Rc<()>, has_grown: bool) -> keys::Map {
    let mut map = if has_grown { keys::Map::new() } else { keys::Map::with_capacity(16) };
    map.extend((0..14).map(|it| (Key(it + 16 * (it * 7 % 13)), value.clone())));
    assert_eq!((map.capacity(), map.load()), (16, 14), "each key has a slot of its own");
    map
}

type Call = fn(&mut keys::Map, &Rc<()>);

const CALLS: &[(&str, Call)] = &[
    ("reserve", |map, _| map.reserve(20)),
    ("reserve more", |map, _| map.reserve(1000)),
    ("set_load_factor", |map, _| map.set_load_factor(0.1)),
    ("insert and grow", |map, value| drop(map.insert(Key(14), value.clone()))),
    ("insert a second pair and grow", |map, value| drop(map.insert(Key(1 << 20), value.clone()))),
    ("or_insert and grow", |map, value| _ = map.entry(Key(15)).or_insert(value.clone())),
    ("insert a second pair", |map, value| {
        map.set_load_factor(2.0);
        map.insert(Key(1 << 20), value.clone());
    }),
    ("grow behind a second pair", |map, value| {
        map.set_load_factor(2.0);
        map.insert(Key(1 << 20), value.clone());
        map.reserve(100);
    }),
    ("insert and grow behind a second pair", |map, value| {
        map.set_load_factor(2.0);
        map.insert(Key(16), value.clone());
        map.insert(Key(1 + 16 * 9), value.clone());
        map.set_load_factor(0.5);
        map.extend((0..20).map(|it| (Key(1000 + it), value.clone())));
    }),
    ("extend", |map, value| map.extend((0..99).map(|it| (Key(it * 3), value.clone())))),
];

#[test]
fn a_panic_of_a_key_in_growth_loses_no_pair_of_keys_in_order() {
    let (value, mut panics) = (Rc::new(()), 0);
    for ((name, call), has_grown) in CALLS.iter().flat_map(|it| [(it, false), (it, true)]) {
        for place in 1.. {
            let mut map = apart(&value, has_grown);
            let before: Vec<Key> = map.keys().copied().collect();
            let panicked = panics_at(place, || call(&mut map, &value));
            let after = format!("after {name}, grown: {has_grown}, place {place}");
            keys::is_whole(&map, &value, &after);
            let lost = before.iter().filter(|key| !map.contains_key(**key)).count();
            assert_eq!(lost, 0, "{after}");
            keys::is_usable(map, &value, &after);
            if !panicked {
                break;
            }
            panics += 1;
        }
    }
    assert!(panics > 200, "only {panics} panics");
}

#[test]
fn a_map_grows_once_more_after_a_panic_in_growth() {
    let value = Rc::new(());
    let places = (1..=15).flat_map(|it| [(it, false), (it, true)]);
    for (place, has_grown) in places {
        let mut map = apart(&value, has_grown);
        for number in [place, place / 2, 0] {
            panics_at(number, || map.reserve(200));
        }
        let after = format!("after place {place}, grown: {has_grown}");
        keys::is_whole(&map, &value, &after);
        assert!(map.capacity() >= 200 && map.len() == 14, "{} pairs {after}", map.len());
    }
}
