//! Sets, beside those of std.
use crate::random::Random;
use intmap_proved::{IntKey, IntSet};
use std::collections::HashSet;

const CALLS: u32 = 40_000;

/// Keys in ascending order, whatever iterator they come from.
fn sorted<'a>(keys: impl Iterator<Item = &'a i64>) -> Vec<i64> {
    let mut keys: Vec<i64> = keys.copied().collect();
    keys.sort_unstable();
    keys
}

/// A key near 0 or near 2^40 of either sign, so that some share a slot.
fn key_of(random: &mut Random, keys: u64) -> i64 {
    let near = (random.below(keys) << (random.below(2) * 40)) as i64;
    if random.below(2) == 0 { near } else { -near }
}

fn call(set: &mut IntSet<i64>, plain: &mut HashSet<i64>, random: &mut Random, keys: u64) {
    let key = key_of(random, keys);
    match random.below(2000) {
        0 => {
            set.retain(|key| key % 3 != 0);
            plain.retain(|key| key % 3 != 0);
        }
        1 => *set = set.clone(),
        2 => *set = set.drain().collect(),
        3 => set.reserve(random.below(500) as usize),
        4 => {
            let more: Vec<i64> = (0..20).map(|_| key_of(random, keys)).collect();
            set.extend(more.clone());
            plain.extend(more);
        }
        5 => {
            let gone: Vec<i64> = set.extract_if(|it| it % 5 == 0).collect();
            assert!(gone.iter().all(|it| it % 5 == 0 && plain.remove(it)), "{gone:?}");
            assert!(plain.iter().all(|it| it % 5 != 0), "{gone:?}");
        }
        6..100 => assert_eq!(set.replace(key), plain.replace(key), "replace {key}"),
        100..800 => assert_eq!(set.insert(key), plain.insert(key), "insert {key}"),
        1400..1500 => assert_eq!(set.get(key), plain.get(&key), "get {key}"),
        800..1400 => assert_eq!(set.remove(key), plain.remove(&key), "remove {key}"),
        _ => assert_eq!(set.contains(key), plain.contains(&key), "contains {key}"),
    }
    assert_eq!((set.len(), set.is_empty()), (plain.len(), plain.is_empty()));
}

#[test]
fn random_calls_return_what_those_of_std_return() {
    for keys in [16, 300, 20_000] {
        let (mut set, mut plain) = (IntSet::new(), HashSet::new());
        let mut random = Random(keys);
        for _ in 0..CALLS {
            call(&mut set, &mut plain, &mut random, keys);
        }
        assert_eq!(sorted(set.iter()), sorted(plain.iter()), "of {keys}");
    }
}

fn random_sets(random: &mut Random, keys: u64) -> (IntSet<i64>, HashSet<i64>) {
    let members: Vec<i64> = (0..random.below(keys)).map(|_| key_of(random, keys)).collect();
    (members.iter().copied().collect(), members.into_iter().collect())
}

#[test]
fn sets_are_combined_as_those_of_std() {
    let mut random = Random(7);
    for _ in 0..300 {
        let keys = 1 + random.below(60);
        let (one, plain_one) = random_sets(&mut random, keys);
        let (other, plain_other) = random_sets(&mut random, keys);
        let text = format!("{one:?} and {other:?}");
        assert_eq!(sorted(one.union(&other)), sorted(plain_one.union(&plain_other)), "{text}");
        assert_eq!(
            sorted(one.intersection(&other)),
            sorted(plain_one.intersection(&plain_other)),
            "{text}"
        );
        assert_eq!(
            sorted(one.difference(&other)),
            sorted(plain_one.difference(&plain_other)),
            "{text}"
        );
        assert_eq!(
            sorted(one.symmetric_difference(&other)),
            sorted(plain_one.symmetric_difference(&plain_other)),
            "{text}"
        );
        assert_eq!(one.is_subset(&other), plain_one.is_subset(&plain_other), "{text}");
        assert_eq!(one.is_superset(&other), plain_one.is_superset(&plain_other), "{text}");
        assert_eq!(one.is_disjoint(&other), plain_one.is_disjoint(&plain_other), "{text}");
        assert_eq!(one == other, plain_one == plain_other, "{text}");
        let both: IntSet<i64> = one.intersection(&other).copied().collect();
        assert!(both.is_subset(&one) && both.is_superset(&both), "{text}");
    }
}

#[test]
fn sets_are_combined_by_operators() {
    let mut random = Random(8);
    for _ in 0..300 {
        let (one, plain_one) = random_sets(&mut random, 60);
        let (other, plain_other) = random_sets(&mut random, 60);
        let combined = [
            ("|", &one | &other, &plain_one | &plain_other),
            ("&", &one & &other, &plain_one & &plain_other),
            ("-", &one - &other, &plain_one - &plain_other),
            ("^", &one ^ &other, &plain_one ^ &plain_other),
        ];
        for (name, set, plain) in combined {
            assert_eq!(sorted(set.iter()), sorted(plain.iter()), "{one:?} {name} {other:?}");
            let mut changed = one.clone();
            match name {
                "|" => changed |= &other,
                "&" => changed &= &other,
                "-" => changed -= &other,
                _ => changed ^= &other,
            }
            assert_eq!(changed, set, "{one:?} {name}= {other:?}");
        }
    }
}

#[test]
fn members_that_an_operator_leaves_keep_their_order() {
    let mut random = Random(10);
    for _ in 0..300 {
        let (one, _) = random_sets(&mut random, 60);
        let (other, _) = random_sets(&mut random, 60);
        let kept = |has: bool| -> Vec<i64> {
            one.iter().copied().filter(|key| other.contains(*key) == has).collect()
        };
        let mut common = one.clone();
        common &= &other;
        assert_eq!(Vec::from_iter(common), kept(true), "{one:?} &= {other:?}");
        if other.len() >= one.len() {
            let mut rest = one.clone();
            rest -= &other;
            assert_eq!(Vec::from_iter(rest), kept(false), "{one:?} -= {other:?}");
        }
    }
}

/// Checks the bounds at each step of an iterator and of its clones. Returns the first ones.
fn bounds<'a>(members: impl Iterator<Item = &'a i64> + Clone, text: &str) -> (usize, usize) {
    let first = members.size_hint();
    let mut members = members;
    loop {
        let left = members.clone().count();
        let (least, most) = members.size_hint();
        assert_eq!(members.clone().size_hint(), (least, most), "a clone, {text}");
        assert!(least <= left && most.is_some_and(|most| left <= most), "{left} left, {text}");
        if members.next().is_none() {
            assert_eq!(members.size_hint(), (0, Some(0)), "{text}");
            return (first.0, first.1.expect("there is an upper bound"));
        }
    }
}

#[test]
fn iterators_over_two_sets_bound_what_is_left() {
    let mut random = Random(9);
    for _ in 0..300 {
        let keys = 1 + random.below(60);
        let (one, _) = random_sets(&mut random, keys);
        let (other, _) = random_sets(&mut random, keys);
        let text = format!("{one:?} and {other:?}");
        let (few, many) = (one.len().min(other.len()), one.len().max(other.len()));
        assert_eq!(bounds(one.union(&other), &text), (many, many + few));
        assert_eq!(bounds(one.intersection(&other), &text), (0, few));
        let least = one.len().saturating_sub(other.len());
        assert_eq!(bounds(one.difference(&other), &text), (least, one.len()));
        let either = bounds(one.symmetric_difference(&other), &text);
        assert_eq!(either, (many - few, many + few));
    }
}

/// A key that carries a number which its equality ignores.
#[derive(Clone, Copy, Debug)]
struct Labelled(u64, char);

impl PartialEq for Labelled {
    fn eq(&self, other: &Labelled) -> bool {
        self.0 == other.0
    }
}

impl Eq for Labelled {}

impl IntKey for Labelled {
    fn number(&self) -> u64 {
        self.0
    }
}

#[test]
fn a_replaced_member_is_the_new_one() {
    let mut set = IntSet::new();
    assert!(set.insert(Labelled(0, 'a')) && set.insert(Labelled(8, 'b')));
    let label = |set: &IntSet<Labelled>, key| set.get(Labelled(key, '?')).map(|it| it.1);
    assert!(!set.insert(Labelled(0, 'c')));
    assert_eq!((label(&set, 0), label(&set, 8), label(&set, 4)), (Some('a'), Some('b'), None));
    assert_eq!(set.replace(Labelled(0, 'd')).map(|it| it.1), Some('a'));
    assert_eq!(set.replace(Labelled(4, 'e')).map(|it| it.1), None);
    assert_eq!((label(&set, 0), label(&set, 4), set.len()), (Some('d'), Some('e'), 3));
}

#[test]
fn members_that_are_not_reached_by_extract_if_stay() {
    let mut set: IntSet<u64> = (0..9).map(|key| key << 3).collect();
    let before: Vec<u64> = set.iter().copied().collect();
    let mut picked = set.extract_if(|key| key == before[1] || key == before[7]);
    assert_eq!((picked.size_hint(), picked.next()), ((0, Some(9)), Some(before[1])));
    assert_eq!(picked.size_hint(), (0, Some(7)));
    drop(picked);
    let left: Vec<u64> = before.iter().copied().filter(|it| *it != before[1]).collect();
    assert!(set.iter().eq(&left), "{set:?} from {before:?}");
    assert!(set.extract_if(|_| false).next().is_none());
    assert!(set.extract_if(|_| true).eq(left) && set.is_empty());
}

#[test]
fn a_set_iterates_in_one_order_and_gives_its_keys_away() {
    let mut set: IntSet<u32> = (0..50).map(|key| key * 7).collect();
    set.extend(&[1, 2, 3]);
    let keys: Vec<u32> = set.iter().copied().collect();
    assert!(!keys.is_sorted(), "an order that could be mistaken: {keys:?}");
    assert!((&set).into_iter().eq(&keys), "a loop");
    assert_eq!((set.iter().len(), set.iter().size_hint()), (53, (53, Some(53))));
    assert!(set.clone().into_iter().eq(keys.clone()), "into_iter");
    assert!(set.clone().drain().eq(keys.clone()), "drain");
    assert_eq!((set.take(7), set.take(7)), (Some(7), None));
    assert_eq!(set.len(), 52);
    set.clear();
    assert!(set.is_empty() && set.capacity() > 4, "the slots stay");
}

#[test]
fn an_exclusive_or_removes_as_remove_does() {
    // keys of one slot
    let mut set = IntSet::from([0u64, 4, 8]);
    set ^= &IntSet::from([0]);
    assert_eq!(set.iter().collect::<Vec<_>>(), [&8, &4]);
}
