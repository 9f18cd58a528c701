//! The order of the pairs that closures keep or iterators leave, and the order of drops. The lines
//! of `table` have the order that each other call leaves.
use crate::list::List;
use crate::random::Random;
use crate::told::{Key, Map, Shows};
use intmap_proved::IntMap;
use std::cell::RefCell;
use std::mem::ManuallyDrop;
use std::rc::Rc;

/// Pairs in a map of 2 slots, whose keys all share the first slot.
fn crowded(keys: u64) -> IntMap<u64, u64> {
    let mut map = IntMap::with_capacity(2);
    map.try_set_load_factor_thousandths(1_000_000).expect("an empty map meets it");
    map.extend((0..keys).map(|key| (key * 2, key)));
    assert_eq!(map.capacity(), 2, "{keys} keys share a slot");
    map
}

fn keys_of<V>(map: &IntMap<u64, V>) -> Vec<u64> {
    map.keys().copied().collect()
}

#[test]
fn pairs_that_are_kept_keep_their_order() {
    for kept in 0_u64..128 {
        let mut map = crowded(7);
        let mut seen = Vec::new();
        map.retain(|key, value| {
            assert_eq!(key, value * 2);
            seen.push(key);
            kept >> value & 1 == 1
        });
        let wanted: Vec<u64> = (0..7).filter(|it| kept >> it & 1 == 1).map(|it| it * 2).collect();
        assert_eq!(seen, [0, 2, 4, 6, 8, 10, 12], "each pair is seen once, of {kept:07b}");
        assert_eq!(keys_of(&map), wanted, "of {kept:07b}");
        assert!(map.iter().all(|(key, value)| *key == value * 2) && map.assert_count());
    }
}

#[test]
fn pairs_that_are_not_extracted_keep_their_order() {
    for kept in 0_u64..128 {
        let mut map = crowded(7);
        let gone: Vec<u64> = map.extract_if(|_, it| kept >> *it & 1 == 0).map(|it| it.1).collect();
        let (stay, go): (Vec<u64>, Vec<u64>) = (0..7).partition(|it| kept >> it & 1 == 1);
        assert_eq!(gone, go, "of {kept:07b}");
        assert!(map.values().copied().eq(stay), "of {kept:07b}: {map:?}");
        assert!(map.assert_count());
    }
}

#[test]
fn a_drain_that_ends_early_leaves_the_rest_in_order() {
    for taken in 0..=8 {
        let mut map = crowded(7);
        map.insert(1, 100);
        let drained: Vec<u64> = map.drain().take(taken).map(|pair| pair.0).collect();
        let all = [0, 2, 4, 6, 8, 10, 12, 1];
        assert_eq!(drained, all[..taken], "{taken} are drained");
        assert_eq!(keys_of(&map), all[taken..], "after {taken}");
        assert_eq!((map.len(), map.capacity()), (8 - taken, 2));
        assert!(map.assert_count());
    }
}

#[test]
fn a_forgotten_iterator_leaves_a_whole_map() {
    let mut map = crowded(7);
    let mut drain = ManuallyDrop::new(map.drain());
    assert_eq!((drain.next(), drain.next()), (Some((0, 0)), Some((2, 1))));
    let mut extracted = ManuallyDrop::new(map.extract_if(|key, _| key == 6));
    assert_eq!(extracted.next(), Some((6, 3)));
    assert!(ManuallyDrop::new(map.iter_mut()).next().is_some());
    for key in [4, 5] {
        assert_eq!(*ManuallyDrop::new(map.entry(key)).key(), key);
    }
    let mut left = keys_of(&map);
    left.sort_unstable();
    assert_eq!((left, map.len()), (vec![4, 8, 10, 12], 4));
    assert!(map.assert_count());
}

/// A map of 256 slots, each with five pairs, whose next growth is due at the next insertion.
fn chains() -> Map {
    let mut random = Random(8);
    let mut map = Map::with_capacity(256);
    map.try_set_load_factor_thousandths(5 * 1000 + 11).expect("an empty map meets it");
    map.extend((0..5 * 256 + 3).map(|it| (Key(it % 256 + (random.next() << 8)), it)));
    assert_eq!((map.len(), map.capacity()), (1283, 256));
    map
}

#[test]
fn growth_keeps_the_order_of_the_pairs_of_each_slot() {
    let (map, mut slots) = (chains(), Vec::new());
    for factor in [2506, 1253, 500, 78] {
        let (mut grown, mut list) = (map.clone(), List::like(&map));
        grown.try_set_load_factor_thousandths(factor).expect("there is memory");
        list.meet(factor);
        slots.push(grown.capacity());
        assert_eq!(grown.shown(), list.shown(), "at {factor}");
    }
    assert_eq!(slots, [512, 1024, 4096, 16_384]);
    let (mut grown, mut list) = (map.clone(), List::like(&map));
    assert_eq!(grown.insert(Key(7), 7), list.store(Key(7), 7));
    assert_eq!((grown.capacity(), grown.shown()), (512, list.shown()), "an insertion");
}

/// A value that writes its number down when it is dropped.
struct Logged(u64, Log);

impl Drop for Logged {
    fn drop(&mut self) {
        self.1.borrow_mut().push(self.0);
    }
}

type Log = Rc<RefCell<Vec<u64>>>;

/// Values that are logged in a map whose keys partly share slots.
fn logged() -> (IntMap<u64, Logged>, Log) {
    let log = Log::default();
    let keys = (0..200).map(|number| number * number * 7);
    (keys.map(|key| (key, Logged(key, log.clone()))).collect(), log)
}

type Call = fn(IntMap<u64, Logged>);

#[test]
fn values_are_dropped_in_the_order_of_iteration() {
    let calls: &[(&str, Call)] = &[
        ("clear", |mut map| map.clear()),
        ("into_iter", |map| map.into_iter().for_each(drop)),
        ("into_keys", |map| map.into_keys().for_each(drop)),
        ("drain", |mut map| map.drain().for_each(drop)),
        ("extract_if", |mut map| map.extract_if(|_, _| true).for_each(drop)),
        ("retain", |mut map| map.retain(|_, _| false)),
        ("retain_mut", |mut map| map.retain_mut(|_, _| false)),
    ];
    for (name, call) in calls {
        let (map, log) = logged();
        let order = keys_of(&map);
        assert!(!order.is_sorted(), "an order that could be mistaken: {order:?}");
        call(map);
        assert_eq!(*log.borrow(), order, "{name}");
    }
}

/// Fails unless each of these was dropped once, in any order.
fn are_dropped(dropped: &[u64], mut wanted: Vec<u64>) {
    let mut dropped = dropped.to_vec();
    dropped.sort_unstable();
    wanted.sort_unstable();
    assert_eq!(dropped, wanted);
}

#[test]
fn a_dropped_map_drops_the_first_pairs_of_all_slots_before_the_others() {
    let (map, log) = logged();
    let (slots, order) = (map.capacity() as u64, keys_of(&map));
    let is_first = |at: &usize| *at == 0 || order[at - 1] % slots != order[*at] % slots;
    let (first, others): (Vec<usize>, Vec<usize>) = (0..order.len()).partition(is_first);
    assert!(first.len() > 30 && others.len() > 30, "{} slots of {} pairs", slots, order.len());
    drop(map);
    let dropped = log.borrow();
    let (early, late) = dropped.split_at(first.len());
    assert_eq!(early, first.iter().map(|at| order[*at]).collect::<Vec<_>>());
    are_dropped(late, others.iter().map(|at| order[*at]).collect());
}

#[test]
fn an_iterator_by_value_that_ends_early_drops_what_is_left() {
    let (map, log) = logged();
    let order = keys_of(&map);
    drop(map.into_iter().next());
    assert_eq!(log.borrow()[0], order[0]);
    are_dropped(&log.borrow(), order);
}
