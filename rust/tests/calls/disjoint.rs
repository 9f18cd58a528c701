//! Mutable references to the values of several keys at once.
use crate::random::Random;
use intmap_proved::IntMap;
use std::collections::HashMap;

/// A map of keys that count up, with a slot each, or of keys of which many share a slot.
fn map_of(random: &mut Random, zeros: u64) -> (IntMap<u64, u64>, HashMap<u64, u64>) {
    let keys = 1 + random.below(60);
    let pairs = (0..keys).map(|key| (key << zeros, key + 1000));
    let mut map = IntMap::new();
    map.extend(pairs.clone());
    (map, pairs.collect())
}

#[test]
fn each_key_gets_its_own_value() {
    let (mut random, mut all_present) = (Random(6), 0);
    for _ in 0..5000 {
        let zeros = random.below(4) * 2;
        let (mut map, mut plain) = map_of(&mut random, zeros);
        let first = random.below(30);
        let mut step = || 1 + random.below(9);
        let (second, third) = (first + step(), first + 20 + step());
        // in no order, all different
        let keys = [third, first, third + step(), second].map(|key| key << zeros);
        let values = map.get_disjoint_mut(keys);
        all_present += u64::from(values.iter().all(Option::is_some));
        for (key, value) in keys.into_iter().zip(values) {
            assert_eq!(value.as_deref(), plain.get(&key), "of {key} in {plain:?}");
            if let Some(value) = value {
                *value += key;
                plain.insert(key, *value);
            }
        }
        assert!(map.iter().all(|(key, value)| plain.get(key) == Some(value)), "{keys:?}");
        assert_eq!(map.len(), plain.len());
    }
    assert!(all_present > 500, "only {all_present} times");
}

#[test]
fn equal_keys_are_found_wherever_they_are() {
    let mut map = IntMap::from([(0u64, 'a'), (8, 'b'), (16, 'c'), (1, 'd')]);
    assert_eq!(map.get_disjoint_mut([]), []);
    assert_eq!(map.get_disjoint_mut([5, 5]), [None, None], "absent keys may be equal");
    for keys in [[0, 0, 1], [16, 8, 16], [1, 0, 1]] {
        let mut map = map.clone();
        let panicked = std::panic::catch_unwind(move || map.get_disjoint_mut(keys).len());
        let said = panicked.expect_err("two keys are equal");
        assert_eq!(said.downcast_ref(), Some(&"two of the keys are equal"), "{keys:?}");
    }
    let values = map.get_disjoint_mut([16, 0, 8, 1, 3]).map(|it| it.copied());
    assert_eq!(values, [Some('c'), Some('a'), Some('b'), Some('d'), None]);
}
