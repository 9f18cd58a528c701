//! Each call with each of its requests failing in turn, and the calls that make none.
use crate::allocator::{bytes, failing_at, requests};
use intmap_proved::{Cause, Entry, IntMap, IntSet, VacantEntry};

/// So many keys, with as many zero bits behind each. Keys with six share one slot here.
fn map_of(keys: u64, zeros: u32) -> IntMap<u64, u64> {
    (0..keys).map(|key| (key << zeros, key + 100)).collect()
}

fn vacant(map: &mut IntMap<u64, u64>, key: u64) -> VacantEntry<'_, u64, u64> {
    match map.entry(key) {
        Entry::Vacant(entry) => entry,
        Entry::Occupied(_) => panic!("{key} is absent"),
    }
}

type MapCall = fn(&mut IntMap<u64, u64>) -> Result<(), Cause>;

/// A name, how many keys there are before and how many bits of each are zero, how many requests the
/// call makes, and the call.
const MAP_CALLS: &[(&str, u64, u32, u64, MapCall)] = &[
    ("insert into an empty slot", 4, 0, 0, |map| Ok(map.try_insert(5, 1).map(drop)?)),
    ("insert into a slot of one", 4, 0, 1, |map| Ok(map.try_insert(9, 1).map(drop)?)),
    ("insert and grow", 14, 0, 2, |map| Ok(map.try_insert(15, 1).map(drop)?)),
    ("insert and grow a shared slot", 14, 6, 3, |map| Ok(map.try_insert(15, 1).map(drop)?)),
    ("insert again", 11, 0, 0, |map| Ok(map.try_insert(3, 1).map(drop)?)),
    ("insert_checked", 4, 0, 1, |map| Ok(map.try_insert_checked(9, 1).map(drop)?)),
    ("insert_checked again", 4, 0, 0, |map| Ok(map.try_insert_checked(3, 1).map(drop)?)),
    ("extend", 4, 0, 1, |map| Ok(map.try_extend([(9, 1)])?)),
    ("reserve", 4, 0, 2, |map| map.try_reserve(100)),
    ("reserve for a shared slot", 11, 6, 3, |map| map.try_reserve(100)),
    ("reserve what is there", 4, 0, 0, |map| map.try_reserve(1)),
    ("reserve_pairs", 4, 0, 2, |map| map.try_reserve_pairs(100)),
    ("reserve_pairs that have room", 4, 0, 0, |map| map.try_reserve_pairs(1)),
    ("reserve_insertions", 4, 0, 3, |map| map.try_reserve_insertions(100)),
    ("reserve_insertions in the slots", 4, 0, 1, |map| map.try_reserve_insertions(3)),
    ("reserve_insertions of none", 4, 0, 0, |map| map.try_reserve_insertions(0)),
    ("shrink_to_fit as before", 4, 0, 0, |map| map.try_shrink_to_fit()),
    ("set_load_factor", 4, 0, 2, |map| map.try_set_load_factor(0.1)),
    ("set_load_factor as before", 4, 0, 0, |map| map.try_set_load_factor(0.909)),
    ("clone", 4, 0, 2, |map| map.try_clone().map(drop)),
    ("clone a shared slot", 4, 6, 3, |map| map.try_clone().map(drop)),
    ("collisions", 4, 0, 2, |map| map.try_collisions().map(drop)),
    ("new", 0, 0, 2, |_| IntMap::<u64, u64>::try_new().map(drop)),
    ("with_capacity", 0, 0, 2, |_| IntMap::<u64, u64>::try_with_capacity(100).map(drop)),
    ("with_room_for", 0, 0, 2, |_| IntMap::<u64, u64>::try_with_room_for(100).map(drop)),
    ("from_iter", 0, 0, 2, |_| IntMap::try_from_iter((0..3_u64).map(|it| (it, it))).map(drop)),
    ("or_insert", 4, 0, 1, |map| Ok(map.entry(9).try_or_insert(1).map(drop)?)),
    ("or_insert and grow", 14, 0, 2, |map| Ok(map.entry(15).try_or_insert(1).map(drop)?)),
    ("or_insert and grow a shared slot", 14, 6, 3, |map| {
        Ok(map.entry(15).try_or_insert(1).map(drop)?)
    }),
    ("or_insert_with and grow", 14, 0, 2, |map| {
        Ok(map.entry(15).try_or_insert_with(|| 1).map(drop)?)
    }),
    ("or_insert_with_key and grow", 14, 0, 2, |map| {
        Ok(map.entry(15).try_or_insert_with_key(|key| *key).map(drop)?)
    }),
    ("or_try_insert_with and grow", 14, 0, 2, |map| {
        map.entry(15).or_try_insert_with(|| Ok::<u64, Cause>(1)).map(drop)
    }),
    ("or_default", 4, 0, 1, |map| Ok(map.entry(9).try_or_default().map(drop)?)),
    ("or_default and grow", 14, 0, 2, |map| Ok(map.entry(15).try_or_default().map(drop)?)),
    ("insert_entry", 4, 0, 1, |map| Ok(map.entry(9).try_insert_entry(1).map(drop)?)),
    ("insert_entry and grow", 14, 0, 2, |map| Ok(map.entry(15).try_insert_entry(1).map(drop)?)),
    ("insert of a vacant entry", 14, 0, 2, |map| Ok(vacant(map, 15).try_insert(1).map(drop)?)),
    ("insert_entry of a vacant entry", 14, 0, 2, |map| {
        Ok(vacant(map, 15).try_insert_entry(1).map(drop)?)
    }),
];

/// Makes the call with each of its requests failing in turn. Returns how many there were.
pub fn failures<M, S: PartialEq + std::fmt::Debug>(
    name: &str,
    make: impl Fn() -> M,
    state: impl Fn(&M) -> S,
    call: impl Fn(&mut M) -> Result<(), Cause>,
) -> u64 {
    for number in 1.. {
        let mut map = make();
        let (before, held) = (state(&map), bytes());
        let (returned, failed) = failing_at(number, || call(&mut map));
        if !failed {
            assert_eq!(returned, Ok(()), "{name}");
            return number - 1;
        }
        assert_eq!(returned, Err(Cause::Memory), "{name}, request {number}");
        assert_eq!(bytes(), held, "bytes after {name}, request {number}");
        assert_eq!(state(&map), before, "{name}, request {number}");
        assert_eq!(call(&mut map), Ok(()), "{name} once more, after request {number}");
    }
    unreachable!()
}

/// All that a map shows of itself.
pub fn state_of(map: &IntMap<u64, u64>) -> (String, usize, usize, usize) {
    (format!("{map:?}"), map.capacity(), map.load_factor_thousandths(), map.len())
}

#[test]
fn a_failed_call_leaves_the_map() {
    for (name, keys, zeros, wanted, call) in MAP_CALLS.iter().copied() {
        let make = || map_of(keys, zeros);
        let before = bytes();
        assert_eq!(failures(name, make, state_of, call), wanted, "requests of {name}");
        assert_eq!(bytes(), before, "bytes left after {name}");
    }
}

/// A map that can do with fewer slots: keys of three slots, or keys in slots of their own of which
/// some will share one.
fn with_too_many_slots(are_apart: bool) -> IntMap<u64, u64> {
    let mut map = if are_apart { IntMap::new() } else { IntMap::with_capacity(64) };
    map.extend((0..if are_apart { 58 } else { 0 }).map(|key| (key, key + 100)));
    map.retain(|key, _| key % 16 < 2);
    let more = match are_apart {
        true => vec![40, 12],
        false => vec![0, 64, 5, 128, 1, 192, 65, 16, 80, 256, 3],
    };
    map.extend(more.into_iter().map(|key| (key, key + 100)));
    map
}

#[test]
fn a_map_that_is_not_shrunk_keeps_its_order() {
    for (are_apart, wanted) in [(false, 4), (true, 4)] {
        let make = || with_too_many_slots(are_apart);
        for call in [IntMap::try_shrink_to_fit as MapCall, |map| map.try_shrink_to(16)] {
            let before = bytes();
            let requests = failures("shrink_to", make, state_of, call);
            assert_eq!(requests, wanted, "apart: {are_apart}");
            assert_eq!(bytes(), before, "apart: {are_apart}");
        }
        let (before, mut map) = (bytes(), make());
        let held = bytes() - before;
        map.shrink_to_fit();
        assert_eq!(map.capacity(), 16, "apart: {are_apart}");
        assert!(bytes() - before < held, "apart: {are_apart}");
    }
}

/// Keys in order in a map with room for them.
fn with_room(keys: u64) -> IntMap<u64, u64> {
    let mut map = IntMap::with_capacity(16);
    map.extend((0..keys).map(|key| (key, key + 100)));
    map
}

/// The same in a map that grows by insertions. At its last growth three pairs shared a slot with
/// another, so it has nodes for three.
fn grown(keys: u64) -> IntMap<u64, u64> {
    let mut map = IntMap::new();
    map.extend((0..keys).map(|key| (key, key + 100)));
    map
}

/// Keys in order, and a second pair in the slot of the first one.
fn with_second(keys: u64) -> IntMap<u64, u64> {
    let mut map = grown(keys - 1);
    map.insert(16, 116);
    map
}

/// The bytes of 16 slots with a word of bits, and those of three nodes.
const SLOTS: isize = 16 * 24 + 8;
const NODES: isize = 3 * 24;

/// How a map is made, and the bytes that it has.
type Form = (&'static str, fn(u64) -> IntMap<u64, u64>, isize);

const FORMS: [Form; 3] = [
    ("with room", with_room, SLOTS),
    ("grown", grown, SLOTS + NODES),
    ("with a second pair", with_second, SLOTS + NODES),
];

#[test]
fn a_map_has_the_bytes_of_its_slots_and_nodes() {
    for (form, make, wanted) in FORMS {
        for keys in [13, 14] {
            let before = bytes();
            let map = make(keys);
            assert_eq!((map.capacity(), map.len() as u64), (16, keys), "{form}");
            assert_eq!(bytes() - before, wanted, "{keys} keys, {form}");
        }
    }
}

#[test]
fn growth_requests_nodes_for_the_further_pairs_alone() {
    for (keys, zeros) in [(14, 0), (14, 6), (11, 3), (60, 4)] {
        let (before, mut map) = (bytes(), map_of(keys, zeros));
        let further = map.len() as isize - map.load() as isize;
        map.reserve(map.capacity());
        let slots = map.capacity() as isize;
        let nodes = bytes() - before - 24 * slots - 8 * ((slots + 63) / 64);
        assert_eq!(nodes, 24 * further, "{keys} keys, {zeros} zeros");
    }
}

/// A name, how many keys there are before, how many requests the call makes of each map, and the
/// call. The slot of 25 has a pair, and so has that of 28, which part among 32 slots, and that of
/// 44, which don't.
const CALLS_OF_FORMS: &[(&str, u64, [u64; 3], MapCall)] = &[
    ("insert into an empty slot", 13, [0, 0, 0], |map| Ok(map.try_insert(15, 1).map(drop)?)),
    ("insert a second pair", 13, [1, 0, 0], |map| Ok(map.try_insert(25, 1).map(drop)?)),
    ("insert_checked of a second pair", 13, [1, 0, 0], |map| {
        Ok(map.try_insert_checked(25, 1).map(drop)?)
    }),
    ("or_insert of a second pair", 13, [1, 0, 0], |map| {
        Ok(map.entry(25).try_or_insert(1).map(drop)?)
    }),
    ("insert_entry of a second pair", 13, [1, 0, 0], |map| {
        Ok(map.entry(25).try_insert_entry(1).map(drop)?)
    }),
    ("insert of a vacant entry", 13, [1, 0, 0], |map| {
        Ok(vacant(map, 25).try_insert(1).map(drop)?)
    }),
    ("extend by a second pair", 13, [1, 0, 0], |map| Ok(map.try_extend([(25, 1)])?)),
    ("insert and grow", 14, [2, 2, 3], |map| Ok(map.try_insert(15, 1).map(drop)?)),
    ("or_insert and grow", 14, [2, 2, 3], |map| Ok(map.entry(15).try_or_insert(1).map(drop)?)),
    ("insert a second pair that parts", 14, [2, 2, 3], |map| {
        Ok(map.try_insert(28, 1).map(drop)?)
    }),
    ("insert a second pair that stays", 14, [3, 3, 3], |map| {
        Ok(map.try_insert(44, 1).map(drop)?)
    }),
    ("reserve", 13, [2, 2, 3], |map| map.try_reserve(100)),
    ("reserve_insertions", 13, [3, 3, 3], |map| map.try_reserve_insertions(100)),
    ("reserve_insertions in the slots", 13, [1, 0, 0], |map| map.try_reserve_insertions(1)),
    ("set_load_factor", 13, [2, 2, 3], |map| map.try_set_load_factor(0.1)),
    ("clone", 13, [2, 2, 3], |map| map.try_clone().map(drop)),
];

#[test]
fn a_failed_call_leaves_a_map_of_each_form() {
    for (name, keys, wanted, call) in CALLS_OF_FORMS.iter().copied() {
        for ((form, make, _), wanted) in FORMS.into_iter().zip(wanted) {
            let (name, before) = (format!("{name}, {form}"), bytes());
            let requests = failures(&name, || make(keys), state_of, call);
            assert_eq!(requests, wanted, "requests of {name}");
            assert_eq!(bytes(), before, "bytes left after {name}");
        }
    }
}

type SetCall = fn(&mut IntSet<u64>) -> Result<(), Cause>;

const SET_CALLS: &[(&str, u64, SetCall)] = &[
    ("insert", 1, |set| set.try_insert(9).map(drop)),
    ("insert again", 0, |set| set.try_insert(3).map(drop)),
    ("replace", 1, |set| set.try_replace(9).map(drop)),
    ("replace a member", 0, |set| set.try_replace(3).map(drop)),
    ("extend", 1, |set| Ok(set.try_extend([9])?)),
    ("reserve", 2, |set| set.try_reserve(100)),
    ("reserve_members", 2, |set| set.try_reserve_members(100)),
    ("reserve_members that have room", 0, |set| set.try_reserve_members(1)),
    ("reserve_insertions", 3, |set| set.try_reserve_insertions(100)),
    ("reserve_insertions in the slots", 1, |set| set.try_reserve_insertions(3)),
    ("set_load_factor", 2, |set| set.try_set_load_factor(0.1)),
    ("set_load_factor as before", 0, |set| set.try_set_load_factor(0.909)),
    ("with_room_for", 2, |_| IntSet::<u64>::try_with_room_for(100).map(drop)),
    ("shrink_to_fit as before", 0, |set| set.try_shrink_to_fit()),
    ("clone", 2, |set| set.try_clone().map(drop)),
    ("new", 2, |_| IntSet::<u64>::try_new().map(drop)),
    ("with_capacity", 2, |_| IntSet::<u64>::try_with_capacity(100).map(drop)),
    ("from_iter", 2, |_| IntSet::try_from_iter(0..3_u64).map(drop)),
];

#[test]
fn a_failed_call_leaves_the_set() {
    for (name, wanted, call) in SET_CALLS.iter().copied() {
        let make = || (0..4).collect();
        let state = |set: &IntSet<u64>| (format!("{set:?}"), set.capacity(), set.len());
        assert_eq!(failures(name, make, state, call), wanted, "requests of {name}");
    }
}

type Quiet = fn(&mut IntMap<u64, u64>);

const QUIET: &[(&str, Quiet)] = &[
    ("get", |map| assert!(map.get(3).is_some())),
    ("get_mut", |map| assert!(map.get_mut(3).is_some())),
    ("insert again", |map| assert!(map.insert(3, 1).is_some())),
    ("entry", |map| *map.entry(3).or_insert(1) += 1),
    ("iter", |map| assert_eq!(map.iter().count(), 1000)),
    ("keys", |map| assert_eq!(map.keys().count(), 1000)),
    ("values_mut", |map| map.values_mut().for_each(|value| *value += 1)),
    ("remove", |map| assert!(map.remove(3).is_some())),
    ("remove by an entry", |map| {
        let Entry::Occupied(entry) = map.entry(3) else { panic!("3 is present") };
        entry.remove();
    }),
    ("a value that comes back", |map| {
        let Entry::Occupied(entry) = map.entry(3) else { panic!("3 is present") };
        assert_eq!(entry.hand_over(Err::<(), _>), None);
    }),
    ("retain", |map| map.retain(|key, _| key % 2 == 0)),
    ("extract_if", |map| assert_eq!(map.extract_if(|key, _| key % 2 == 0).count(), 500)),
    ("drain", |map| assert_eq!(map.drain().count(), 1000)),
    ("clear", |map| map.clear()),
    ("==", |map| assert!(map.eq(&map))),
];

#[test]
fn calls_that_need_no_memory_request_none() {
    for (name, call) in QUIET.iter().copied() {
        // two keys a slot
        let mut map: IntMap<u64, u64> = (0..500).chain(4096..4596).map(|key| (key, key)).collect();
        assert_eq!(requests(|| call(&mut map)), 0, "{name}");
    }
}

#[test]
fn clone_from_of_as_many_slots_requests_none() {
    for (keys, zeros) in [(100, 0), (40, 6), (3, 0)] {
        let source = map_of(keys, zeros);
        let mut map = source.clone();
        map.remove(0);
        map.insert(1 << zeros, 7);
        assert_eq!(requests(|| map.clone_from(&source)), 0, "{keys} keys");
        assert_eq!(state_of(&map), state_of(&source), "{keys} keys");
        let members: IntSet<u64> = source.keys().copied().collect();
        let mut set = members.clone();
        set.remove(0);
        assert_eq!(requests(|| set.clone_from(&members)), 0, "{keys} members");
    }
}

#[test]
fn maps_give_their_memory_back() {
    let before = bytes();
    for keys in [0, 1, 100, 10_000] {
        let mut map = map_of(keys, 0);
        map.extend((0..keys).map(|key| (key << 20, key)));
        assert!(bytes() > before, "{keys} keys");
        drop(map.clone());
        map.retain(|key, _| key % 3 == 0);
        drop(map.into_iter().take(7).collect::<IntMap<u64, u64>>());
        assert_eq!(bytes(), before, "{keys} keys");
    }
}
