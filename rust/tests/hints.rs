//! How many items iterators say are left, at each step, and what their clones say.
#![forbid(unsafe_code)]

use intmap_proved::{IntMap, IntSet};
use std::cell::Cell;

/// Takes so many items.
fn behind<I: Iterator>(steps: usize, mut items: I) -> I {
    items.by_ref().take(steps).for_each(drop);
    items
}

/// What is said after so many items holds of the others, and their number is the most that there
/// are.
fn bounds<I: Iterator>(of: &str, steps: usize, items: I) {
    let items = behind(steps, items);
    let (least, most) = items.size_hint();
    let left = items.count();
    assert!(least <= left, "{of}, {steps} steps: {least} at least, {left} left");
    assert_eq!(most, Some(left), "{of}, {steps} steps");
}

/// After so many items, the number of the others is said.
fn is_exact<I: ExactSizeIterator>(of: &str, steps: usize, items: I) {
    let items = behind(steps, items);
    let said = (items.len(), items.size_hint());
    let left = items.count();
    assert_eq!(said, (left, (left, Some(left))), "{of}, {steps} steps");
}

/// A clone after so many items says the same, and has the same items.
fn clones<I: Iterator<Item: PartialEq> + Clone>(of: &str, steps: usize, items: I) {
    let items = behind(steps, items);
    let clone = items.clone();
    let said = (clone.size_hint(), items.size_hint());
    assert_eq!(said.0, said.1, "a clone of {of}, {steps} steps");
    let left = clone.clone().count();
    assert!(said.0.0 <= left && said.0.1.is_none_or(|most| left <= most), "{of}, {steps} steps");
    assert!(clone.eq(items), "a clone of {of}, {steps} steps");
}

/// Numbers of pairs, and what they are multiplied by to be keys. So slots hold one pair, or
/// several, or most hold none.
const SIZES: [(u64, u64); 7] = [(0, 1), (1, 1), (3, 1), (14, 1), (40, 1), (9, 64), (40, 12)];

/// Maps of keys that were inserted one by one, and that were collected.
fn maps() -> impl Iterator<Item = IntMap<u64, u64>> {
    SIZES.into_iter().flat_map(|(pairs, by)| {
        let pairs = (0..pairs).map(move |key| (key * by, key));
        let mut grown = IntMap::new();
        grown.extend(pairs.clone());
        [grown, pairs.collect()]
    })
}

#[test]
fn iterators_of_maps_say_how_many_are_left_at_each_step() {
    for map in maps() {
        for steps in 0..=map.len() {
            let mut map = map.clone();
            is_exact("iter", steps, map.iter());
            is_exact("keys", steps, map.keys());
            is_exact("values", steps, map.values());
            is_exact("iter_mut", steps, map.iter_mut());
            is_exact("values_mut", steps, map.values_mut());
            is_exact("a loop", steps, (&map).into_iter());
            is_exact("a loop that writes", steps, (&mut map).into_iter());
            clones("iter", steps, map.iter());
            clones("keys", steps, map.keys());
            clones("values", steps, map.values());
            is_exact("a clone of iter", steps, map.iter().clone());
            bounds("into_iter", steps, map.clone().into_iter());
            bounds("into_keys", steps, map.clone().into_keys());
            bounds("into_values", steps, map.clone().into_values());
            is_exact("drain", steps, map.drain());
        }
    }
}

#[test]
fn extract_if_says_how_many_pairs_its_closure_has_not_seen() {
    for map in maps() {
        for steps in 0..=map.len() {
            let (mut map, seen) = (map.clone(), Cell::new(0));
            let pairs = map.len();
            let picked = map.extract_if(|_, value| {
                seen.set(seen.get() + 1);
                *value % 2 == 0
            });
            let picked = behind(steps, picked);
            let said = picked.size_hint();
            assert_eq!(said, (0, Some(pairs - seen.get())), "{pairs} pairs, {steps} steps");
        }
    }
}

#[test]
fn iterators_of_sets_say_how_many_are_left_at_each_step() {
    for map in maps() {
        let set: IntSet<u64> = map.keys().copied().collect();
        for steps in 0..=set.len() {
            is_exact("iter", steps, set.iter());
            is_exact("a loop", steps, (&set).into_iter());
            clones("iter", steps, set.iter());
            is_exact("a clone of iter", steps, set.iter().clone());
            bounds("into_iter", steps, set.clone().into_iter());
            is_exact("drain", steps, set.clone().drain());
        }
    }
}

#[test]
fn iterators_of_two_sets_and_their_clones_say_what_holds() {
    let other: IntSet<u64> = (0..30).map(|key| key * 3).collect();
    for map in maps() {
        let set: IntSet<u64> = map.into_keys().collect();
        for steps in 0..=set.len() + other.len() {
            clones("union", steps, set.union(&other));
            clones("intersection", steps, set.intersection(&other));
            clones("difference", steps, set.difference(&other));
            clones("symmetric_difference", steps, set.symmetric_difference(&other));
        }
    }
}
