//! Room for insertions, which then request nothing, and the slots that room for pairs requests.
use crate::allocator::{failing_above, refused_above, requests};
use crate::each_call::{failures, state_of};
use crate::random::Random;
use intmap_proved::{Cause, IntMap, IntSet};

type Map = IntMap<u64, u64>;

/// Load factors in thousandths, and the most pairs with which they are tried: below 1 a pair takes
/// many slots.
const FACTORS: [(usize, u64); 5] = [(0, 40), (1, 60), (500, 900), (909, 900), (3000, 900)];

const PRESENT: [u64; 7] = [0, 1, 4, 13, 14, 60, 500];
const ADDED: [u64; 7] = [0, 1, 2, 3, 20, 99, 400];

/// How a map comes to its keys.
#[derive(Clone, Copy, Debug)]
enum Form {
    InOrder,
    OneSlot,
    AmpleSlots,
    /// As a copy, which has memory for its pairs alone. Most of these are then removed.
    ThinnedInOrder,
    ThinnedOneSlot,
}

const FORMS: [Form; 5] =
    [Form::InOrder, Form::OneSlot, Form::AmpleSlots, Form::ThinnedInOrder, Form::ThinnedOneSlot];

/// A load factor, how many keys a map has at first, how, and how many insertions follow.
#[derive(Clone, Copy, Debug)]
struct Case {
    factor: usize,
    keys: u64,
    form: Form,
    added: u64,
}

impl Case {
    fn map(self) -> Map {
        let mut map = Map::with_capacity(if let Form::AmpleSlots = self.form { 2000 } else { 2 });
        map.try_set_load_factor_thousandths(self.factor).expect("an empty map meets it");
        let shift = if let Form::OneSlot | Form::ThinnedOneSlot = self.form { 40 } else { 0 };
        map.extend((0..self.keys).map(|key| (key << shift, key)));
        if let Form::ThinnedInOrder | Form::ThinnedOneSlot = self.form {
            map = map.clone();
            map.retain(|_, value| *value % 3 == 0);
        }
        map
    }

    fn reserved(self) -> Map {
        let mut map = self.map();
        map.reserve_insertions(self.added as usize);
        map
    }
}

fn cases() -> impl Iterator<Item = Case> {
    let sizes = PRESENT.into_iter().flat_map(|keys| ADDED.map(|added| (keys, added)));
    let all = FACTORS.into_iter().flat_map(move |it| sizes.clone().map(move |sizes| (it, sizes)));
    let all = all.filter(|((_, most), (keys, added))| keys + added <= *most);
    all.flat_map(|((factor, _), (keys, added))| {
        FORMS.map(|form| Case { factor, keys, form, added })
    })
}

/// So many keys that a map lacks, of each kind: of the slot of 0, random ones, and in order.
fn new_keys(map: &Map, count: u64, random: &mut Random) -> [Vec<u64>; 3] {
    let count = count as usize;
    let absent = |key: &u64| !map.contains_key(*key);
    [
        (1 << 20..).map(|key| key << 39).filter(absent).take(count).collect(),
        std::iter::repeat_with(|| random.next()).filter(absent).take(count).collect(),
        (0..).filter(absent).take(count).collect(),
    ]
}

/// Inserts an absent key by one of the calls that do.
fn insert(map: &mut Map, call: usize, key: u64) -> Result<(), Cause> {
    match call % 5 {
        0 => Ok(map.try_insert(key, 1).map(drop)?),
        1 => Ok(map.try_insert_checked(key, 1).map(drop)?),
        2 => Ok(map.entry(key).try_or_insert(1).map(drop)?),
        3 => Ok(map.entry(key).try_insert_entry(1).map(drop)?),
        _ => Ok(map.try_extend([(key, 1)])?),
    }
}

/// Looks a present key up, inserts it again or removes it, or does nothing.
fn between(map: &mut Map, random: &mut Random, present: &[u64]) -> Result<(), Cause> {
    let Some(key) = present.get(random.below(present.len() as u64 + 1) as usize) else {
        return Ok(());
    };
    match random.below(4) {
        0 => drop(map.get(*key)),
        1 => drop(map.remove(*key)),
        2 if map.contains_key(*key) => drop(map.try_insert(*key, 2)?),
        _ => drop(map.get_mut(*key)),
    }
    Ok(())
}

/// Makes the call with every request failing. It has to make none.
fn without_requests(text: &str, call: impl FnOnce() -> Result<(), Cause>) {
    let mut returned = Ok(());
    let count = requests(|| returned = failing_above(0, call).0);
    assert_eq!((returned, count), (Ok(()), 0), "{text}");
}

#[test]
fn insertions_that_have_room_request_nothing() {
    let mut random = Random(3);
    let mut count = 0;
    for case in cases() {
        for (kind, keys) in new_keys(&case.map(), case.added, &mut random).iter().enumerate() {
            let (mut map, text) = (case.reserved(), format!("{case:?}, keys of kind {kind}"));
            let (capacity, len) = (map.capacity(), map.len());
            without_requests(&text, || {
                let mut all = keys.iter().enumerate();
                all.try_for_each(|(call, key)| insert(&mut map, call, *key))
            });
            assert_eq!((map.capacity(), map.len()), (capacity, len + keys.len()), "{text}");
            assert!(map.assert_count() && keys.iter().all(|key| map.contains_key(*key)), "{text}");
            count += 1;
        }
    }
    assert!(count > 2000, "only {count} maps");
}

#[test]
fn insertions_behind_reserve_request_nothing_up_to_the_load_factor() {
    for keys in 0..100 {
        let mut map: Map = (0..keys).map(|key| (key, key)).collect();
        map.reserve(map.capacity() + 100);
        let most = map.capacity() as u64 * 909 / 1000;
        // each of these keys has a slot of its own
        without_requests(&format!("{keys} keys, then {most}"), || {
            (keys..most).try_for_each(|key| Ok(map.try_insert(key, key).map(drop)?))
        });
    }
}

#[test]
fn removals_and_look_ups_between_insertions_leave_their_room() {
    let mut random = Random(4);
    for case in cases() {
        let (mut map, text) = (case.reserved(), format!("{case:?}"));
        let present: Vec<u64> = map.keys().copied().collect();
        let kinds = new_keys(&map, case.added, &mut random);
        // some of each kind
        let keys: Vec<u64> = (0..case.added as usize).map(|it| kinds[it % 3][it]).collect();
        let capacity = map.capacity();
        without_requests(&text, || {
            for (call, key) in keys.iter().enumerate() {
                between(&mut map, &mut random, &present)?;
                between(&mut map, &mut random, &keys[..call])?;
                insert(&mut map, call, *key)?;
            }
            Ok(())
        });
        assert_eq!(map.capacity(), capacity, "{text}");
        assert!(map.assert_count(), "{text}");
    }
}

#[test]
fn insertions_into_a_set_that_has_room_request_nothing() {
    let mut random = Random(5);
    for case in cases() {
        let map = case.map();
        for (kind, keys) in new_keys(&map, case.added, &mut random).iter().enumerate() {
            let mut set = IntSet::with_capacity(2);
            set.try_set_load_factor_thousandths(case.factor).expect("an empty set meets it");
            set.extend(map.keys());
            set.reserve_insertions(case.added as usize);
            let text = format!("{case:?}, keys of kind {kind}");
            without_requests(&text, || {
                keys.iter().try_for_each(|key| set.try_insert(*key).map(drop))
            });
            assert!(keys.iter().all(|key| set.contains(*key)), "{text}");
        }
    }
}

#[test]
fn refused_room_for_insertions_leaves_the_map() {
    let mut seen = [0; 4];
    for case in cases() {
        let (before, mut after, text) = (case.map(), case.reserved(), format!("{case:?}"));
        let reserve = |map: &mut Map| map.try_reserve_insertions(case.added as usize);
        let count = failures(&text, || case.map(), state_of, reserve);
        let nodes = before.len() as u64 - before.load() + case.added;
        // slots, bits and nodes of a map that grows, or nodes if those that are free aren't enough
        let wanted = match after.capacity() > before.capacity() {
            true => count == 2 + nodes.min(1),
            false => count <= case.added.min(1),
        };
        assert!(wanted, "{count} requests of {text}");
        assert_eq!(requests(|| reserve(&mut after).unwrap()), 0, "again, {text}");
        seen[count as usize] += 1;
    }
    let few = seen.iter().filter(|it| **it < 100).count();
    assert!(few == 1 && seen[2] > 0, "how many maps made 0 to 3 requests: {seen:?}");
}

/// The least number of slots, from two on, in which so many pairs meet the load factor of a new
/// map.
fn least_slots(pairs: u128) -> u128 {
    (1..).map(|bits| 1 << bits).find(|slots| pairs * 1000 / slots <= 909).expect("some do")
}

/// The last numbers of pairs that meet the load factor in 2 slots, in 4 and so on up to 2^63, each
/// with the next one, and others between them.
fn numbers_of_pairs() -> impl Iterator<Item = usize> {
    let last = (1..=63).map(|bits| ((910u128 << bits).div_ceil(1000) - 1) as usize);
    let mut random = Random(6);
    let others: Vec<usize> =
        (0..2000).map(|_| (random.next() >> random.below(64)) as usize).collect();
    last.flat_map(|pairs| [pairs, pairs + 1]).chain([0, 1, usize::MAX]).chain(others)
}

#[test]
fn room_for_pairs_is_requested_in_the_least_slots() {
    // the bytes of two slots
    const TWO: usize = 2 * 24;
    for pairs in numbers_of_pairs() {
        let slots = least_slots(pairs as u128);
        let (made, refused) = refused_above(TWO, || Map::try_with_room_for(pairs));
        let wanted = match slots {
            2 => (Ok(2), 0),
            // so many bytes are no size of a block
            _ if slots * 24 > isize::MAX as u128 && slots <= 1 << 63 => (Err(Cause::Memory), 0),
            _ if slots > 1 << 63 => (Err(Cause::TooLarge), 0),
            _ => (Err(Cause::Memory), 24 * slots as usize),
        };
        assert_eq!((made.map(|map| map.capacity()), refused), wanted, "{pairs} pairs");
        let mut map = Map::with_capacity(2);
        let (returned, refused) = refused_above(0, || map.try_reserve_pairs(pairs));
        assert_eq!((returned.map(|()| map.capacity()), refused), wanted, "{pairs} pairs reserved");
    }
}
