//! Which pairs are left after a panic: their keys, their values and, where no pair moves to another
//! slot, their order.
use crate::fuse::{Value, burn, panics_at};
use crate::keys::Key;
use intmap_proved::{Entry, IntMap};

type Map = IntMap<u64, u64>;
type Pairs = Vec<(u64, u64)>;

const KEYS: u64 = 40;

/// Keys whose low bits are zero, so that more keys share a slot at a larger shift. They are
/// inserted one by one, or collected.
fn maps() -> impl Iterator<Item = Map> {
    [0, 1, 2, 5, 20].into_iter().flat_map(|shift| {
        let pairs = (0..KEYS).map(move |key| (key << shift, key + 100));
        let mut grown = Map::new();
        grown.extend(pairs.clone());
        [grown, pairs.collect()]
    })
}

fn pairs_of(map: &Map) -> Pairs {
    map.iter().map(|(key, value)| (*key, *value)).collect()
}

fn is_even(value: u64) -> bool {
    value % 2 == 0
}

/// A call that burns once for each pair, and what a panic at the place of a pair leaves of the
/// pairs before it and of the others.
type Row = (&'static str, fn(&mut Map), fn(Pairs, Pairs) -> Pairs);

const CALLS: &[Row] = &[
    (
        "extract_if",
        |map| {
            let picked = map.extract_if(|_, value| {
                burn();
                *value += 2;
                is_even(*value)
            });
            picked.for_each(drop);
        },
        |before, others| {
            let stay = before.into_iter().filter(|it| !is_even(it.1));
            stay.map(|(key, value)| (key, value + 2)).chain(others).collect()
        },
    ),
    (
        "retain_mut",
        |map| {
            map.retain_mut(|_, value| {
                burn();
                *value += 2;
                !is_even(*value)
            });
        },
        |before, others| {
            let stay = before.into_iter().filter(|it| !is_even(it.1));
            stay.map(|(key, value)| (key, value + 2)).chain(others).collect()
        },
    ),
    (
        "drain",
        |map| map.drain().for_each(|_| burn()),
        |_, others| others.into_iter().skip(1).collect(),
    ),
    (
        "for_each_mut",
        |map| {
            map.for_each_mut(|_, value| {
                burn();
                *value += 1;
            });
        },
        |before, others| before.into_iter().map(|it| (it.0, it.1 + 1)).chain(others).collect(),
    ),
    (
        "iter_mut",
        |map| {
            map.iter_mut().for_each(|(_, value)| {
                burn();
                *value += 1;
            });
        },
        |before, others| before.into_iter().map(|it| (it.0, it.1 + 1)).chain(others).collect(),
    ),
    (
        "and_modify",
        |map| {
            for key in map.keys().copied().collect::<Vec<_>>() {
                _ = map.entry(key).and_modify(|value| {
                    burn();
                    *value += 1;
                });
            }
        },
        |before, others| before.into_iter().map(|it| (it.0, it.1 + 1)).chain(others).collect(),
    ),
];

#[test]
fn a_panic_of_a_closure_leaves_the_pairs_that_it_did_not_reach() {
    for (map, (name, call, left)) in
        maps().flat_map(|map| CALLS.iter().map(move |it| (map.clone(), it)))
    {
        for place in 0..map.len() {
            let mut after = map.clone();
            assert!(panics_at(place as u64 + 1, || call(&mut after)), "{name}, place {place}");
            let mut before = pairs_of(&map);
            let others = before.split_off(place);
            assert_eq!(pairs_of(&after), left(before, others), "after {name}, place {place}");
            assert_eq!(after.capacity(), map.capacity(), "after {name}, place {place}");
        }
    }
}

#[test]
fn a_panic_of_an_iterator_or_of_one_closure_leaves_what_was_done_before() {
    for map in maps() {
        for place in 1..=KEYS {
            let pairs = (0..KEYS).map(|key| (key * 3, key));
            let (mut after, mut wanted) = (map.clone(), map.clone());
            let burning = pairs.clone().inspect(|_| burn());
            assert!(panics_at(place, || after.extend(burning)), "place {place}");
            wanted.extend(pairs.take(place as usize - 1));
            assert_eq!(pairs_of(&after), pairs_of(&wanted), "after extend, place {place}");
        }
        for key in map.keys().copied() {
            let (mut after, mut wanted) = (map.clone(), map.clone());
            let Entry::Occupied(entry) = after.entry(key) else { panic!("{key} is present") };
            assert!(panics_at(1, || _ = entry.hand_over(|value| burnt(value).map(drop))));
            wanted.remove(key);
            assert_eq!(pairs_of(&after), pairs_of(&wanted), "after hand_over of {key}");
        }
        let mut after = map.clone();
        assert!(panics_at(1, || _ = after.entry(7 << 40).or_insert_with(|| burnt(1).unwrap_or(1))));
        assert_eq!(pairs_of(&after), pairs_of(&map), "after or_insert_with");
    }
}

/// The value, unless the place panics.
fn burnt(value: u64) -> Result<u64, u64> {
    burn();
    Ok(value)
}

/// The pairs before a place that stay, and all from another one on.
fn rest(before: &Pairs, place: usize, stays: fn(u64) -> bool, from: usize) -> Pairs {
    let kept = before[..place].iter().filter(|it| stays(it.1));
    kept.chain(&before[from..]).copied().collect()
}

#[test]
fn a_panic_in_retain_leaves_all_but_what_was_rejected() {
    for map in maps() {
        let before = pairs_of(&map);
        for place in 0..before.len() {
            let mut after = map.clone();
            let panicked = panics_at(place as u64 + 1, || {
                after.retain(|_, value| {
                    burn();
                    is_even(*value)
                });
            });
            assert!(panicked, "place {place}");
            assert_eq!(pairs_of(&after), rest(&before, place, is_even, place), "place {place}");
        }
    }
}

/// A map with these pairs in this order, whose values may panic as they are dropped.
fn dropping(map: &Map) -> IntMap<u64, Value> {
    let mut made = IntMap::with_capacity(map.capacity());
    made.extend(map.iter().map(|(key, value)| (*key, Value::new(*value))));
    made
}

fn numbers_of(map: &IntMap<u64, Value>) -> Pairs {
    map.iter().map(|(key, value)| (*key, value.0)).collect()
}

#[test]
fn a_panic_of_a_drop_leaves_the_pairs_that_were_not_reached() {
    for map in maps() {
        let before = pairs_of(&map);
        let odd = (0..before.len()).filter(|at| !is_even(before[*at].1));
        for (number, place) in odd.enumerate() {
            let (number, of) = (number as u64 + 1, format!("after drop {number}"));
            let mut after = dropping(&map);
            assert!(panics_at(number, || after.retain(|_, value| is_even(value.0))), "{of}");
            assert_eq!(numbers_of(&after), rest(&before, place, is_even, place + 1), "{of}");
            let mut after = dropping(&map);
            assert!(panics_at(number, || after.retain_mut(|_, value| is_even(value.0))), "{of}");
            assert_eq!(numbers_of(&after), rest(&before, place, is_even, place + 1), "{of}");
        }
        for place in 0..before.len() {
            let mut after = dropping(&map);
            assert!(panics_at(place as u64 + 1, || after.clear()), "place {place}");
            assert_eq!(numbers_of(&after), before[place + 1..], "after clear, place {place}");
        }
    }
}

/// A map whose keys may panic.
type Grown = IntMap<Key, u64>;

/// Keys of a map that grows: few in order, some of which most go to one slot that is added, some of
/// which half share a slot, random ones, and many in order.
fn keys() -> [Vec<u64>; 5] {
    let crowded = (0..9).chain((0..6).map(|it| 48 + 64 * it)).collect();
    let mixed = (0..7).chain((1..8).map(|it| it << 6)).collect();
    let spread = (0..200u64).map(|it| it.wrapping_mul(0x9e37_79b9_7f4a_7c15) >> 9).collect();
    [(0..14).collect(), crowded, mixed, spread, (0..1000).collect()]
}

/// What makes a map grow, and the keys that are new.
type Growth = (&'static str, fn(&mut Grown), &'static [u64]);

const GROWTHS: &[Growth] = &[
    ("reserve", |map| map.reserve(map.capacity()), &[]),
    ("reserve more", |map| map.reserve(10 * map.capacity()), &[]),
    ("set_load_factor", |map| map.set_load_factor(0.1), &[]),
    ("insert", |map| _ = map.insert(Key(1 << 50), 7), &[1 << 50]),
    ("or_insert", |map| _ = map.entry(Key(1 << 50)).or_insert(7), &[1 << 50]),
    ("insert_entry", |map| _ = map.entry(Key(1 << 50)).insert_entry(7), &[1 << 50]),
];

/// A map of these keys, which grows at the next new one. It had room from the start, or has grown.
fn full(keys: &[u64], has_grown: bool) -> Grown {
    let mut map = if has_grown { Grown::new() } else { Grown::with_capacity(2 * keys.len()) };
    map.extend(keys.iter().map(|key| (Key(*key), key + 100)));
    map.set_load_factor(map.len() as f32 / map.capacity() as f32 + 0.001);
    map
}

/// The slot of each key of a map, in the order of the walk.
fn slots_of(map: &Grown) -> Vec<u64> {
    map.keys().map(|key| key.0 % map.capacity() as u64).collect()
}

#[test]
fn a_panic_of_a_key_in_growth_loses_no_pair() {
    let (mut panics, mut moved) = (0, 0);
    for ((name, grow, new), keys) in GROWTHS.iter().flat_map(|it| keys().map(|keys| (it, keys))) {
        for has_grown in [false, true] {
            let map = full(&keys, has_grown);
            let step = 1 + keys.len() as u64 / 40;
            for place in (1..).step_by(step as usize) {
                let mut after = map.clone();
                let panicked = panics_at(place, || grow(&mut after));
                let of = format!("after {name} of {} keys, place {place}", keys.len());
                assert!(map.iter().all(|it| after.get(*it.0) == Some(it.1)), "{of}");
                assert!(after.assert_count(), "the count {of}");
                if !panicked {
                    assert_eq!(after.len(), map.len() + new.len(), "{of}");
                    break;
                }
                // the map has the slots that it had, each with the same pairs, in some order
                assert_eq!((after.len(), after.capacity()), (map.len(), map.capacity()), "{of}");
                assert_eq!(slots_of(&after), slots_of(&map), "{of}");
                panics += 1;
                moved += usize::from(!after.keys().eq(map.keys()));
            }
        }
    }
    assert!(panics > 900 && moved > 0, "{panics} panics, {moved} with another order");
}
