//! How many bytes a map of random keys requests, and how many it keeps.
use crate::allocator::{bytes, failing_above};
use crate::random::Random;
use intmap_proved::IntMap;

/// The bytes of a slot, of a node, and of a word of bits.
const SLOT: usize = 24;
const NODE: usize = 24;
const WORD: usize = 8;

const KEYS: usize = 1000;
const SLOTS: usize = 2048;

#[test]
fn random_keys_request_room_for_further_pairs_alone() {
    for seed in 0..20 {
        let (mut random, before) = (Random(seed), bytes());
        let mut map = IntMap::with_capacity(SLOTS);
        let (_, granted) = failing_above(usize::MAX, || {
            map.extend((0..KEYS).map(|number| (random.next(), number as u64)));
        });
        assert_eq!((map.len(), map.capacity()), (KEYS, SLOTS), "seed {seed}");
        let kept = (bytes() - before) as usize - (SLOT * SLOTS + WORD * SLOTS / 64);
        let further = map.len() - map.load() as usize;
        assert!(further > 0, "keys share slots, seed {seed}");
        assert!((NODE * further..2 * NODE * further).contains(&kept), "{kept} bytes, seed {seed}");
        assert!((kept..2 * kept).contains(&granted), "{granted} bytes, {kept} kept, seed {seed}");
    }
}

#[test]
fn nodes_are_at_most_twice_the_pairs_that_shared_slots_at_one_time() {
    for keys in [1, 20, 1000] {
        let (mut random, before) = (Random(keys), bytes());
        let mut map: IntMap<u64, u64> = (0..keys).map(|key| (key, key)).collect();
        let (mut live, mut most) = ((0..keys).collect::<Vec<u64>>(), 2);
        let list = live.capacity() * size_of::<u64>();
        for key in keys..60 * keys {
            let at = random.below(keys) as usize;
            map.remove(live[at]);
            live[at] = key;
            map.insert(key, key);
            most = most.max(map.len() - map.load() as usize);
            let slots = SLOT * map.capacity() + WORD * map.capacity().div_ceil(64);
            let nodes = (bytes() - before) as usize - list - slots;
            assert!(nodes <= 2 * NODE * most, "{nodes} bytes, {most} pairs, {keys} keys");
        }
    }
}
