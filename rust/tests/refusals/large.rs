//! Calls whose request for slots fails, which is the largest. Nothing was granted before it, so
//! nothing was written.
use crate::allocator::{bytes, failing_above};
use intmap_proved::{Cause, Entry, IntMap, IntSet};

/// The bytes of a slot of a map, which are those of a node too, and of a slot of a set.
const MAP_SLOT: usize = 24;
const SET_SLOT: usize = 16;
const NODE: usize = 24;

type Map = IntMap<u64, u64>;
type MapCall = fn(&mut Map) -> Result<(), Cause>;

/// Keys in order in a map that had room for them.
fn with_room(keys: u64) -> Map {
    (0..keys).map(|key| (key, key + 100)).collect()
}

/// Keys in order in a map that grew by insertions.
fn grown(keys: u64) -> Map {
    let mut map = Map::new();
    map.extend((0..keys).map(|key| (key, key + 100)));
    map
}

/// Two keys of one slot, which no growth parts here, among keys in order.
fn together(keys: u64) -> Map {
    (0..keys - 1).chain([1 << 40]).map(|key| (key, key + 100)).collect()
}

/// A name, how the map is made and of how many keys, how many slots of how many bytes the call
/// requests, the bytes that it requests beside slots and bits, and the call.
type Row = (&'static str, fn(u64) -> Map, u64, usize, usize, usize, MapCall);

const MAP_CALLS: &[Row] = &[
    ("new", with_room, 0, 4, MAP_SLOT, 0, |_| Map::try_new().map(drop)),
    ("with_capacity", with_room, 0, 4096, MAP_SLOT, 0, |_| Map::try_with_capacity(4096).map(drop)),
    ("from_iter", with_room, 0, 4096, MAP_SLOT, 0, |_| {
        Map::try_from_iter((0..3000).map(|it| (it, it))).map(drop)
    }),
    ("collisions", with_room, 4, 4, MAP_SLOT, 0, |map| map.try_collisions().map(drop)),
    ("reserve", with_room, 4, 4096, MAP_SLOT, 0, |map| map.try_reserve(4000)),
    ("reserve, grown", grown, 14, 4096, MAP_SLOT, 0, |map| map.try_reserve(4000)),
    ("reserve_pairs", with_room, 4, 4096, MAP_SLOT, 0, |map| map.try_reserve_pairs(3000)),
    ("reserve_insertions", with_room, 4, 4096, MAP_SLOT, 3000 * NODE, |map| {
        map.try_reserve_insertions(3000)
    }),
    ("set_load_factor", with_room, 4, 2048, MAP_SLOT, 0, |map| {
        map.try_set_load_factor_thousandths(1)
    }),
    ("set_load_factor, grown", grown, 14, 8192, MAP_SLOT, 0, |map| {
        map.try_set_load_factor_thousandths(1)
    }),
    ("insert", with_room, 14, 32, MAP_SLOT, 0, |map| Ok(map.try_insert(14, 1).map(drop)?)),
    ("insert, grown", grown, 14, 32, MAP_SLOT, 0, |map| Ok(map.try_insert(14, 1).map(drop)?)),
    ("insert, two stay together", together, 14, 32, MAP_SLOT, NODE, |map| {
        Ok(map.try_insert(14, 1).map(drop)?)
    }),
    ("insert behind many", with_room, 14_909, 32_768, MAP_SLOT, 0, |map| {
        Ok(map.try_insert(14_909, 1).map(drop)?)
    }),
    ("insert behind many, grown", grown, 14_909, 32_768, MAP_SLOT, 0, |map| {
        Ok(map.try_insert(14_909, 1).map(drop)?)
    }),
    ("insert behind many, two stay together", together, 14_909, 32_768, MAP_SLOT, NODE, |map| {
        Ok(map.try_insert(14_909, 1).map(drop)?)
    }),
    ("insert_checked", grown, 14, 32, MAP_SLOT, 0, |map| {
        Ok(map.try_insert_checked(14, 1).map(drop)?)
    }),
    ("or_insert", grown, 14, 32, MAP_SLOT, 0, |map| {
        Ok(map.entry(14).try_or_insert(1).map(drop)?)
    }),
    ("extend", grown, 14, 32, MAP_SLOT, 0, |map| Ok(map.try_extend([(14, 1)])?)),
    ("extend, two stay together", together, 14, 32, MAP_SLOT, NODE, |map| {
        Ok(map.try_extend([(14, 1)])?)
    }),
    ("clone", with_room, 3000, 4096, MAP_SLOT, 0, |map| map.try_clone().map(drop)),
    ("clone, grown", grown, 3000, 4096, MAP_SLOT, 0, |map| map.try_clone().map(drop)),
];

/// The bytes of the words of bits of so many slots.
fn bits(slots: usize) -> usize {
    8 * slots.div_ceil(64)
}

#[test]
fn a_call_that_is_refused_its_slots_was_granted_nothing() {
    for (name, make, keys, slots, slot, others, call) in MAP_CALLS.iter().copied() {
        let mut map = make(keys);
        let state = |map: &Map| (format!("{map:?}"), map.capacity(), map.load_factor_thousandths());
        let (before, held) = (state(&map), bytes());
        for most in [0, bits(slots), bits(slots).max(others), slot * slots - 1] {
            let (returned, granted) = failing_above(most, || call(&mut map));
            assert_eq!((returned, granted), (Err(Cause::Memory), 0), "{name} above {most} bytes");
            assert_eq!(bytes(), held, "bytes after {name} above {most} bytes");
            assert_eq!(state(&map), before, "{name} above {most} bytes");
        }
        let (returned, granted) = failing_above(slot * slots, || call(&mut map));
        let all = slot * slots + bits(slots) + others;
        assert_eq!((returned, granted), (Ok(()), all), "{name} with its slots");
    }
}

#[test]
fn a_second_pair_of_a_slot_requests_nodes_alone() {
    for keys in [14, 14_908] {
        let mut map = with_room(keys - 1);
        let (before, held) = ((format!("{map:?}"), map.capacity()), bytes());
        let (returned, granted) = failing_above(4 * NODE - 1, || map.try_insert(1 << 40, 1));
        assert_eq!(returned.map_err(|it| it.cause), Err(Cause::Memory), "{keys} keys");
        assert_eq!((granted, bytes()), (0, held), "{keys} keys");
        assert_eq!((format!("{map:?}"), map.capacity()), before, "{keys} keys");
        let (returned, granted) = failing_above(4 * NODE, || map.try_insert(1 << 40, 1));
        assert_eq!(returned.map_err(|it| it.cause), Ok(None), "{keys} keys");
        assert_eq!((granted, map.capacity()), (4 * NODE, before.1), "{keys} keys");
    }
}

type SetCall = fn(&mut IntSet<u64>) -> Result<(), Cause>;

/// The same of sets of keys in order, of which some have grown by insertions.
type SetRow = (&'static str, bool, u64, usize, usize, usize, SetCall);

const SET_CALLS: &[SetRow] = &[
    ("with_capacity", false, 0, 4096, SET_SLOT, 0, |_| {
        IntSet::<u64>::try_with_capacity(4096).map(drop)
    }),
    ("reserve", false, 4, 4096, SET_SLOT, 0, |set| set.try_reserve(4000)),
    ("reserve, grown", true, 14, 4096, SET_SLOT, 0, |set| set.try_reserve(4000)),
    ("insert", false, 14, 32, SET_SLOT, 0, |set| set.try_insert(14).map(drop)),
    ("insert, grown", true, 14, 32, SET_SLOT, 0, |set| set.try_insert(14).map(drop)),
    ("clone", false, 3000, 4096, SET_SLOT, 0, |set| set.try_clone().map(drop)),
    ("clone, grown", true, 3000, 4096, SET_SLOT, 0, |set| set.try_clone().map(drop)),
];

#[test]
fn a_call_of_a_set_that_is_refused_its_slots_was_granted_nothing() {
    for (name, has_grown, keys, slots, slot, others, call) in SET_CALLS.iter().copied() {
        let mut set: IntSet<u64> = if has_grown { IntSet::new() } else { (0..keys).collect() };
        set.extend(0..keys);
        let before = (format!("{set:?}"), set.capacity());
        for most in [0, bits(slots), bits(slots).max(others), slot * slots - 1] {
            let (returned, granted) = failing_above(most, || call(&mut set));
            assert_eq!((returned, granted), (Err(Cause::Memory), 0), "{name} above {most} bytes");
            assert_eq!((format!("{set:?}"), set.capacity()), before, "{name} above {most} bytes");
        }
        let (returned, granted) = failing_above(slot * slots, || call(&mut set));
        let all = slot * slots + bits(slots) + others;
        assert_eq!((returned, granted), (Ok(()), all), "{name} with its slots");
    }
}

/// Each call that may fail, with keys that no map has here.
const AMPLE: &[(&str, MapCall)] = &[
    ("insert the next key", |map| Ok(map.try_insert(map.len() as u64, 1).map(drop)?)),
    ("insert", |map| Ok(map.try_insert(FAR, 1).map(drop)?)),
    ("insert_checked", |map| Ok(map.try_insert_checked(FAR, 1).map(drop)?)),
    ("extend", |map| Ok(map.try_extend((0..9).map(|it| (FAR + it, it)))?)),
    ("try_new", |_| Map::try_new().map(drop)),
    ("or_insert", |map| Ok(map.entry(FAR).try_or_insert(1).map(drop)?)),
    ("or_insert_with", |map| Ok(map.entry(FAR).try_or_insert_with(|| 1).map(drop)?)),
    ("or_insert_with_key", |map| Ok(map.entry(FAR).try_or_insert_with_key(|it| *it).map(drop)?)),
    ("or_try_insert_with", |map| map.entry(FAR).or_try_insert_with(|| Ok(1)).map(drop)),
    ("or_default", |map| Ok(map.entry(FAR).try_or_default().map(drop)?)),
    ("insert_entry", |map| Ok(map.entry(FAR).try_insert_entry(1).map(drop)?)),
    ("insert of a vacant entry", |map| match map.entry(FAR) {
        Entry::Vacant(entry) => Ok(entry.try_insert(1).map(drop)?),
        Entry::Occupied(_) => panic!("the key is absent"),
    }),
    ("insert_entry of a vacant entry", |map| match map.entry(FAR) {
        Entry::Vacant(entry) => Ok(entry.try_insert_entry(1).map(drop)?),
        Entry::Occupied(_) => panic!("the key is absent"),
    }),
    ("reserve", |map| map.try_reserve(2 * map.capacity())),
    ("set_load_factor", |map| map.try_set_load_factor(0.1)),
    ("set_load_factor_thousandths", |map| map.try_set_load_factor_thousandths(100)),
    ("clone", |map| map.try_clone().map(|it| assert!(it == *map))),
    ("collisions", |map| map.try_collisions().map(drop)),
    ("from_iter", |map| Map::try_from_iter(map.drain().filter(|_| true)).map(drop)),
    ("with_capacity", |map| Map::try_with_capacity(2 * map.capacity()).map(drop)),
];

/// A key of the first slot of a map of keys in order.
const FAR: u64 = 1 << 40;

#[test]
fn calls_with_ample_memory_succeed_at_a_large_size() {
    for (keys, grows) in [(14_907, false), (14_909, true), (100_000, false), (119_275, true)] {
        for (form, make) in [("with room", with_room as fn(u64) -> Map), ("grown", grown)] {
            let whole = make(keys);
            let mut longer = whole.clone();
            longer.insert(FAR, 1);
            assert_eq!(longer.capacity() > whole.capacity(), grows, "{keys} keys, {form}");
            for (name, call) in AMPLE.iter().copied() {
                let mut map = whole.clone();
                assert_eq!(call(&mut map), Ok(()), "{name}, {keys} keys, {form}");
            }
        }
    }
}

#[test]
fn four_billion_slots_are_refused_at_once() {
    let most = 1 << 30;
    let (returned, granted) = failing_above(most, || Map::try_with_capacity(1 << 32).map(drop));
    assert_eq!((returned, granted), (Err(Cause::Memory), 0), "with_capacity");
    let mut map = Map::new();
    let (returned, granted) = failing_above(most, || map.try_reserve(1 << 32));
    assert_eq!((returned, granted), (Err(Cause::Memory), 0), "reserve");
    assert_eq!(map.capacity(), 4);
}
