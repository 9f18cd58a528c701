//! Slots of one pair each in a map that grew, in one that had room, and in one with a node that is
//! free; and slots of many pairs. Calls one after another return and leave what they do to a plain
//! list.
use crate::list::List;
use crate::random::Random;
use crate::table::*;
use crate::told::*;

const SLOTS: u64 = 64;
const KEYS: u64 = 40;

/// A key of the slot of another key.
fn beside(key: u64) -> Key {
    Key(key + SLOTS * 8)
}

fn filled(mut map: Map) -> Map {
    map.extend((0..KEYS).map(|key| (Key(key), key + 100)));
    let sizes = (map.capacity() as u64, map.load());
    assert_eq!(sizes, (SLOTS, KEYS), "each key has a slot of its own");
    map
}

/// Keys in order: in a map that grows by insertions; in one that is made with room; and behind a
/// second pair that has come and gone.
fn forms() -> [Map; 3] {
    let [grown, with_room] = [Map::new(), Map::with_capacity(SLOTS as usize)].map(filled);
    let mut with_free = grown.clone();
    assert_eq!(with_free.insert(beside(7), 0), None);
    assert_eq!((with_free.load(), with_free.len() as u64), (KEYS, KEYS + 1), "two share a slot");
    assert_eq!(with_free.remove(beside(7)), Some(0));
    [grown, with_room, with_free]
}

/// Keys that all share the first of two slots.
fn crowded() -> Map {
    let mut map = Map::with_capacity(2);
    map.try_set_load_factor_thousandths(1_000_000).expect("an empty map meets it");
    map.extend((0..7).map(|key| (Key(key * 2), key)));
    assert_eq!((map.capacity(), map.load()), (2, 1), "all share a slot");
    map
}

/// Makes a call on a map or a set, and on its list.
fn make<T: Shows>((name, call, same): &Call<T>, it: &mut T, list: &mut List, key: Key) {
    let before = list.clone();
    assert_eq!(call(it, key), same(list, key), "returned by {name} of {key:?} in {before:?}");
    assert_eq!(it.shown(), list.shown(), "left by {name} of {key:?} in {before:?}");
}

fn is_whole(map: &Map) -> bool {
    map.assert_count() && map.iter().all(|(key, value)| map.get(*key) == Some(value))
}

/// Calls on a key that is present, on one whose slot is empty, and on one whose slot has a pair.
fn steps() -> impl Iterator<Item = (&'static Call<Map>, Key)> + Clone {
    let on_keys = ON_KEY.iter().flat_map(|it| [Key(3), Key(50), beside(3)].map(|key| (it, key)));
    on_keys.chain(ON_ALL.iter().map(|it| (it, Key(93))))
}

#[test]
fn two_calls_do_the_same_in_each_form_of_slots() {
    for (map, (first, key)) in forms().iter().flat_map(|map| steps().map(move |it| (map, it))) {
        let (mut left, mut list) = (map.clone(), List::like(map));
        make(first, &mut left, &mut list, key);
        for (next, key) in steps().filter(|it| it.1.0 != 50) {
            let (mut map, mut list) = (left.clone(), list.clone());
            make(next, &mut map, &mut list, key);
            assert!(is_whole(&map), "{} and {} of {key:?}: {map:?}", first.0, next.0);
        }
    }
}

/// Makes many calls one after another, of which one in nine is on all pairs.
fn random_calls<T: Shows>(made: &T, on_key: &[Call<T>], on_all: &[Call<T>]) {
    let mut random = Random(17);
    let mut pick = |among: u64| random.below(among);
    for _ in 0..60 {
        let (mut it, mut list) = (made.clone(), List::like(made));
        for _ in 0..60 {
            let key = [Key(pick(48)), Key(pick(48)), Key(pick(40) * 2), beside(pick(9))];
            let calls = if pick(9) == 0 { on_all } else { on_key };
            let call = &calls[pick(calls.len() as u64) as usize];
            make(call, &mut it, &mut list, key[pick(4) as usize]);
        }
    }
}

#[test]
fn random_calls_do_the_same_in_each_form_of_slots() {
    forms().iter().chain([&crowded()]).for_each(|it| random_calls(it, ON_KEY, ON_ALL));
    let grown: Set = (0..KEYS).filter(|_| true).map(Key).collect();
    let mut with_free = grown.clone();
    assert!(with_free.insert(beside(7)) && with_free.remove(beside(7)));
    [grown, with_free].iter().for_each(|it| random_calls(it, SET_ON_KEY, SET_ON_ALL));
}

#[test]
fn a_map_of_keys_in_order_grows_as_one_of_keys_in_any_order() {
    for keys in 0..300 {
        let (mut made, mut grown) = (Map::with_capacity(512), Map::new());
        made.extend((0..keys).map(|key| (Key(key), key * 3)));
        grown.extend((0..keys).rev().map(|key| (Key(key), key * 3)));
        grown.reserve(460);
        assert_eq!(made.capacity(), 512);
        if grown.capacity() == 512 {
            assert_eq!(made.shown(), grown.shown(), "{keys} keys");
        }
        assert!(made == grown && is_whole(&grown), "{keys} keys");
    }
}
