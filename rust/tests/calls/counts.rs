//! How many numbers of keys each call reads. A search reads that of the sought key once, and a
//! comparison that of the stored key. So a call that searches or compares more than it
//! says, by whatever method, reads more numbers than the same call on a plain list is due to. What
//! the call returns and leaves is compared with the list too: pairs, order, capacity, load factor.
use crate::list::List;
use crate::table::*;
use crate::told::*;
use std::collections::BTreeMap;

/// The numbers that a call reads, and what it returns. None compares keys by `==`.
fn reads_of<T>(call: impl FnOnce() -> T) -> (u64, T) {
    READS.set(0);
    EQUALS.set(0);
    let returned = call();
    assert_eq!(EQUALS.get(), 0, "keys compared by ==");
    (READS.get(), returned)
}

/// Makes each call on a copy, beside the same on a copy of the list, which is what is returned.
fn compare<T: Shows>(calls: &[Call<T>], whole: &T, made: &List, key: u64) -> Vec<List> {
    let compare_one = |(name, call, same): &Call<T>| {
        let (mut it, mut list, key) = (whole.clone(), made.clone(), Key(key));
        let (reads, returned) = reads_of(|| call(&mut it, key));
        assert_eq!(returned, same(&mut list, key), "returned by {name} of {key:?} in {made:?}");
        assert_eq!(it.shown(), list.shown(), "left by {name} of {key:?} in {made:?}");
        assert_eq!(reads, list.due(), "numbers read by {name} of {key:?} in {made:?}");
        list
    };
    calls.iter().map(compare_one).collect()
}

/// Lists of numbers, from none to crowded slots and beyond several growths. Some have slots of two
/// pairs, which the next growth parts or doesn't.
fn lists() -> Vec<Vec<u64>> {
    let mut found = vec![vec![], vec![0, 4, 8], vec![u64::MAX, 3, 7, 11, 5]];
    for step in [1, 3, 4, 64, 1 << 40] {
        found.extend((1..24).chain([63, 64, 200]).map(|n| (0..n).map(|it| it * step).collect()));
    }
    for shift in [4, 5, 6] {
        found.extend((12..16).map(|n| (0..n).map(|it| (it % 8) + ((it / 8) << shift)).collect()));
        found.push((0..14).map(|it| if it == 13 { (9 << shift) + 7 } else { it }).collect());
    }
    found
}

/// Numbers that are sought in a map of these: present ones, and absent ones of each slot.
fn sought(list: &[u64]) -> impl Iterator<Item = u64> {
    let (step, last) = (1.max(list.len() / 6), list.last().copied().unwrap_or(0));
    let present = list.iter().copied().step_by(step).collect::<Vec<_>>();
    let beside = [0, 1, 32, 48, 64].map(|it| last.wrapping_add(it));
    present.into_iter().chain(beside).chain([1 << 41, 77])
}

fn pairs_of(list: &[u64]) -> impl DoubleEndedIterator<Item = (Key, u64)> {
    list.iter().map(|it| (Key(*it), *it / 2))
}

/// A map that had room from the start, and one out of an iterator that says nothing of its length,
/// so that it grows from two slots on.
fn maps_of(list: &[u64]) -> [(Map, List); 2] {
    let unknown = || pairs_of(list).filter(|_| true);
    let with_room = (pairs_of(list).collect(), List::of(pairs_of(list)));
    [with_room, (unknown().collect(), List::of(unknown()))].map(|(map, made)| (map, made.fresh()))
}

fn set_of(list: &[u64]) -> (Set, List) {
    let keys = || list.iter().map(|it| Key(*it));
    (keys().collect(), List::of_set(keys()).fresh())
}

#[test]
fn each_call_on_a_key_reads_what_one_search_does() {
    // by whether the key's old slot had a pair, and whether its new one has another
    let mut growths = BTreeMap::new();
    for list in lists() {
        for ((map, made), number) in
            maps_of(&list).iter().flat_map(|it| sought(&list).map(move |number| (it, number)))
        {
            let has_pair = made.count_in_slot(number) > 0;
            for left in compare(ON_KEY, map, made, number) {
                if left.slots > made.slots {
                    let stays = left.count_in_slot(number) > 1;
                    *growths.entry((has_pair, stays)).or_insert(0) += 1;
                }
            }
        }
    }
    // pairs of one new slot were in one old slot
    assert_eq!(growths.len(), 3, "{growths:?}");
    assert!(growths.values().all(|it| *it > 20), "{growths:?}");
}

#[test]
fn each_call_on_a_member_reads_what_one_search_does() {
    for list in lists() {
        let (set, made) = set_of(&list);
        sought(&list).for_each(|number| _ = compare(SET_ON_KEY, &set, &made, number));
    }
}

#[test]
fn calls_on_all_pairs_read_numbers_for_their_insertions_and_growth_alone() {
    for (place, list) in lists().into_iter().enumerate() {
        for number in (0..5).map(|it| 7 * place as u64 + it * 5) {
            maps_of(&list).iter().for_each(|(map, made)| _ = compare(ON_ALL, map, made, number));
            let (set, made) = set_of(&list);
            compare(SET_ON_ALL, &set, &made, number);
        }
    }
}

#[test]
fn calls_of_two_sets_read_the_sum_of_their_searches() {
    for list in lists() {
        let quarters: Vec<u64> = list.iter().map(|it| it / 2 + it / 4).collect();
        for numbers in [&quarters, &list, &vec![0, 4, 77]] {
            for (name, call, same) in ON_SETS {
                let ((one, list), (other, with)) = (set_of(&list), set_of(numbers));
                let (reads, returned) = reads_of(|| call(&one, &other));
                assert_eq!(
                    returned,
                    same(&list, &with),
                    "returned by {name} of {list:?}, {with:?}"
                );
                let due = list.due() + with.due();
                assert_eq!(reads, due, "numbers read by {name} of {list:?}, {with:?}");
            }
        }
    }
}

#[test]
fn equality_searches_each_key_up_to_the_first_difference() {
    let looks = |list: &List, keys: &[u64]| {
        let list = list.clone().fresh();
        keys.iter().for_each(|it| list.look(Key(*it)));
        list.due()
    };
    for list in lists() {
        let left: Map = pairs_of(&list).collect();
        let right: Map = pairs_of(&list).rev().collect();
        let (keys, plain) = (List::like(&left).keys(), List::like(&right));
        assert_eq!(reads_of(|| left == right), (looks(&plain, &keys), true), "{list:?}");
        let mut longer = right.clone();
        longer.insert(Key(1 << 50), 0);
        assert_eq!(reads_of(|| left == longer), (0, false), "{list:?} and one more");
        for place in (0..list.len()).step_by(5) {
            let (key, passed) = (Key(keys[place]), &keys[..=place]);
            let mut other = right.clone();
            other.insert(key, 1 << 60);
            let due = looks(&List::like(&other), passed);
            assert_eq!(
                reads_of(|| left == other),
                (due, false),
                "other value of {key:?}, {list:?}"
            );
            other.remove(key);
            other.insert(Key(1 << 50), 0);
            let due = looks(&List::like(&other), passed);
            assert_eq!(reads_of(|| left == other), (due, false), "without {key:?} in {list:?}");
        }
    }
}

#[test]
fn growth_after_growth_reads_numbers_for_room_and_for_slots() {
    let names = ["IntMap::reserve", "IntMap::set_load_factor", "IntMap::try_insert"];
    let calls = [ON_ALL, ON_KEY].concat();
    for list in lists() {
        for (mut map, mut made) in maps_of(&list) {
            for number in (0..40).map(|it| it * it) {
                let (_, call, same) =
                    calls.iter().find(|it| it.0 == names[number as usize % 3]).unwrap();
                let (reads, _) = reads_of(|| call(&mut map, Key(number)));
                made = made.fresh();
                same(&mut made, Key(number));
                assert_eq!(
                    (reads, map.shown()),
                    (made.due(), made.shown()),
                    "{number} in {list:?}"
                );
            }
        }
    }
}
