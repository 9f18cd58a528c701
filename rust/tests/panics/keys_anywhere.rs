//! Random calls with a panic of a key's number at a random place of each.
use crate::fuse::panics_at;
use crate::keys::{Key, Map, is_whole};
use crate::random::Random;
use intmap_proved::{Cause, Entry, IntKey};
use std::rc::Rc;

const ROUNDS: u64 = 200;
const CALLS: u64 = 150;

fn call_on_key(map: &mut Map, call: u64, key: Key, value: &Rc<()>) {
    match call {
        0 => drop(map.insert(key, value.clone())),
        1 => drop(map.try_insert(key, value.clone())),
        2 => _ = map.insert_checked(key, value.clone()),
        3 => drop(map.remove(key)),
        4 => _ = map.entry(key).or_insert(value.clone()),
        5 => _ = map.entry(key).or_insert_with(|| value.clone()),
        6 => _ = map.entry(key).or_try_insert_with(|| Ok::<_, Cause>(value.clone())),
        7 => _ = map.entry(key).insert_entry(value.clone()),
        8 => drop(map.entry(key).insert_entry(value.clone()).remove()),
        9 => match map.entry(key) {
            Entry::Occupied(entry) => drop(entry.remove_entry()),
            Entry::Vacant(entry) => _ = entry.insert(value.clone()),
        },
        _ => {
            if let Entry::Occupied(entry) = map.entry(key) {
                _ = entry.hand_over(Err::<(), _>);
            }
        }
    }
}

fn call_on_all(map: &mut Map, call: u64, key: Key, value: &Rc<()>) {
    let is_picked = |it: Key| (it.number() ^ key.0) % 3 == 0;
    match call {
        0 => map.retain(|it, _| !is_picked(it)),
        1 => map.extract_if(|it, _| is_picked(it)).take(5).for_each(drop),
        2 => map.drain().take(3).for_each(drop),
        3 => map.reserve(key.0 as usize % 300),
        4 => map.set_load_factor((key.0 % 5000) as f32 / 1000.0 + 0.2),
        5 => *map = std::mem::take(map).into_iter().collect(),
        6 => drop(map.clone()),
        7 => map.shrink_to_fit(),
        _ => map.extend((0..9).map(|it| (Key(key.0 + it * 7), value.clone()))),
    }
}

#[test]
fn a_panic_of_a_key_in_any_call_leaves_a_whole_map() {
    let (value, mut random, mut panics) = (Rc::new(()), Random(11), 0);
    for round in 0..ROUNDS {
        let mut map = Map::new();
        let keys = [6, 40, 300][random.below(3) as usize];
        let zeros = [0, 1, 4, 30][random.below(4) as usize];
        if round % 3 == 0 {
            // most keys have a slot of their own
            map.reserve(keys as usize);
        }
        for _ in 0..CALLS {
            let key = Key(random.below(keys) << zeros);
            let place = if random.below(3) > 0 { 0 } else { random.below(20) };
            let (is_on_key, call) = (random.below(5) > 0, random.below(99));
            panics += u64::from(panics_at(place, || match is_on_key {
                true => call_on_key(&mut map, call % 11, key, &value),
                false => call_on_all(&mut map, call % 9, key, &value),
            }));
            is_whole(&map, &value, &format!("after call {call}, on a key: {is_on_key}, {round}"));
        }
    }
    assert!(panics > 1000, "only {panics} panics");
}
