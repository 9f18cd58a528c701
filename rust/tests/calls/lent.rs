//! Mutable references to all values, which live at once, in maps whose further pairs lie in any
//! order.
use crate::random::Random;
use crate::table::{ON_ALL, ON_KEY};
use crate::told::{Key, Map, Shows};
use intmap_proved::IntMap;
use std::collections::HashMap;

type Plain = HashMap<u64, u64>;

/// Makes random insertions and removals. Keys share slots the more, the more zeros are behind them.
fn change(map: &mut IntMap<u64, u64>, plain: &mut Plain, random: &mut Random, zeros: u64) {
    for _ in 0..random.below(300) {
        let (key, value) = (random.below(200) << zeros, random.next());
        if random.below(3) == 0 {
            assert_eq!(map.remove(key), plain.remove(&key));
        } else {
            assert_eq!(map.insert(key, value), plain.insert(key, value));
        }
    }
}

fn pairs_of(map: &IntMap<u64, u64>) -> Vec<(u64, u64)> {
    map.iter().map(|(key, value)| (*key, *value)).collect()
}

#[test]
fn all_values_are_lent_at_once_in_the_order_of_iteration() {
    let (mut random, mut further) = (Random(12), 0);
    for round in 0..400 {
        let zeros = [0, 1, 4, 40][round % 4];
        let (mut map, mut plain) = (IntMap::new(), Plain::new());
        for _ in 0..4 {
            change(&mut map, &mut plain, &mut random, zeros);
            further += map.len() - map.load() as usize;
            map.iter_mut().nth(random.below(300) as usize);
            // the second time, the pairs lie in this order already
            for _ in 0..2 {
                let before = pairs_of(&map);
                let lent: Vec<(&u64, &mut u64)> = map.iter_mut().collect();
                let said: Vec<(u64, u64)> = lent.iter().map(|(key, it)| (**key, **it)).collect();
                assert_eq!(said, before, "round {round}");
                for (key, value) in lent {
                    *value ^= key;
                }
                plain.iter_mut().for_each(|(key, value)| *value ^= key);
                assert!(before.into_iter().map(|it| (it.0, it.1 ^ it.0)).eq(pairs_of(&map)));
                assert!(map.assert_count() && map.len() == plain.len(), "round {round}");
                assert!(plain.iter().all(|(key, value)| map.get(*key) == Some(value)));
            }
        }
    }
    assert!(further > 10_000, "only {further} pairs share a slot with another");
}

#[test]
fn an_iterator_of_values_that_ends_early_changes_the_first_ones() {
    let mut random = Random(13);
    for round in 0..200 {
        let (mut map, mut plain) = (IntMap::new(), Plain::new());
        change(&mut map, &mut plain, &mut random, round % 5);
        let count = random.below(1 + map.len() as u64) as usize;
        let mut wanted = pairs_of(&map);
        wanted[..count].iter_mut().for_each(|it| it.1 = 7);
        map.values_mut().take(count).for_each(|value| *value = 7);
        assert_eq!(pairs_of(&map), wanted, "round {round}");
    }
}

/// Squares, of which many share slots. Some nodes are free, and the others lie out of order.
fn squares() -> Map {
    let mut map: Map = (0..90).map(|it| (Key(it * it), it)).collect();
    (0..90).step_by(7).for_each(|it| _ = map.remove(Key(it * it)));
    assert!(map.len() - map.load() as usize > 20, "further pairs of {map:?}");
    map
}

#[test]
fn after_each_call_the_values_are_lent_in_the_order_of_iteration() {
    let on_keys = ON_KEY.iter().flat_map(|it| (0..90).map(move |key| (it, key * key)));
    let on_all = ON_ALL.iter().map(|it| (it, 93));
    for ((name, call, _), key) in on_keys.chain(on_all) {
        let mut map = squares();
        assert_eq!(map.iter_mut().count(), map.len());
        call(&mut map, Key(key));
        let lent: Vec<(u64, u64)> = map.iter_mut().map(|(key, it)| (key.0, *it)).collect();
        assert_eq!(lent, map.shown().0, "after {name} of {key}");
        call(&mut map, Key(key));
        assert!(map.assert_count(), "after {name} of {key}");
    }
}

fn places_of(map: &IntMap<u64, u64>) -> Vec<*const u64> {
    map.values().map(|value| &raw const *value).collect()
}

#[test]
fn nodes_move_once_when_a_walk_comes_to_the_first_one_that_lies_elsewhere() {
    let mut map = IntMap::with_capacity(4);
    map.try_set_load_factor_thousandths(1_000_000).expect("an empty map meets it");
    map.extend([0, 4, 8, 2, 6, 10, 1, 5, 9].map(|key| (key, key)));
    assert!(map.keys().copied().eq([0, 4, 8, 1, 5, 9, 2, 6, 10]), "{map:?}");
    let before = places_of(&map);
    assert_eq!(map.iter_mut().take(3).count(), 3);
    assert_eq!(places_of(&map), before, "the nodes of the first slot lie in order");
    assert_eq!(map.iter_mut().take(4).count(), 4);
    let after = places_of(&map);
    assert_ne!(after, before, "those of the second slot lie behind those of the third");
    assert_eq!(map.iter_mut().count(), 9);
    assert_eq!(places_of(&map), after, "now all lie in order");
}
