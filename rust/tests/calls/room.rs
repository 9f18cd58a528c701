//! Room for a number of pairs, and slots that are given back.
use crate::random::Random;
use intmap_proved::{Cause, IntMap, IntSet};

/// Whether so many pairs meet a load factor in so many slots, as an insertion decides it.
fn meets(pairs: usize, factor: usize, slots: usize) -> bool {
    pairs * 1000 / slots <= factor
}

/// The least number of slots, from two on, in which so many pairs meet a load factor.
fn least_slots(pairs: usize, factor: usize) -> usize {
    (1..63).map(|bits| 1 << bits).find(|slots| meets(pairs, factor, *slots)).expect("some do")
}

#[test]
fn a_map_with_room_for_pairs_adds_no_slots_for_them() {
    for pairs in 0..3000 {
        let wanted = least_slots(pairs, 909);
        let mut map = IntMap::with_room_for(pairs);
        let mut set = IntSet::with_room_for(pairs);
        assert_eq!((map.capacity(), set.capacity()), (wanted, wanted), "for {pairs}");
        map.extend((0..pairs).map(|key| (key, ())));
        set.extend(0..pairs);
        assert_eq!((map.capacity(), set.capacity()), (wanted, wanted), "with {pairs}");
    }
}

#[test]
fn an_insertion_grows_a_map_if_its_load_factor_is_exceeded_by_a_thousandth() {
    // at 124, 249, 499, 749 and 999 of these, a checked number of pairs is the least that exceeds it
    for factor in 100..1100 {
        let (mut map, mut slots) = (IntMap::new(), 4);
        map.try_set_load_factor_thousandths(factor).expect("an empty map meets it");
        for pairs in 1..40 {
            map.insert(pairs, ());
            // the load is checked at 4 to 7 pairs, 12 to 15 and so on
            slots = if pairs % 8 < 4 { slots } else { slots.max(least_slots(pairs, factor)) };
            assert_eq!(map.capacity(), slots, "{pairs} pairs at {factor}");
        }
    }
}

#[test]
fn reserved_pairs_add_no_slots_at_any_load_factor() {
    let mut random = Random(5);
    for _ in 0..2000 {
        let factor = [0, 1, 100, 500, 909, 910, 1000, 2500, 7000][random.below(9) as usize];
        let (present, more) = (random.below(90) as usize, random.below(90) as usize);
        let mut map = IntMap::new();
        map.try_set_load_factor_thousandths(factor).expect("an empty map meets it");
        map.extend((0..present).map(|key| (key, ())));
        let (before, text) = (map.capacity(), format!("{present} and {more} at {factor}"));
        for reserve in [IntMap::reserve_pairs, IntMap::reserve_insertions] {
            let mut map = map.clone();
            reserve(&mut map, more);
            let reserved = before.max(least_slots(present + more, factor));
            assert_eq!(map.capacity(), reserved, "{text}");
            map.extend((present..present + more).map(|key| (key, ())));
            let after = (map.capacity(), map.load_factor_thousandths());
            assert_eq!(after, (reserved, factor), "{text}");
        }
    }
    for reserve in [IntSet::reserve_members, IntSet::reserve_insertions] {
        let mut set = IntSet::from([0u64, 1]);
        reserve(&mut set, 98);
        assert_eq!(set.capacity(), least_slots(100, 909));
        set.extend(2..100);
        assert_eq!(set.capacity(), least_slots(100, 909));
    }
}

/// A map after some insertions and removals, with its load factor.
fn emptied(random: &mut Random) -> (IntMap<u64, u64>, usize) {
    let factor = [100, 500, 909, 1000, 2500][random.below(5) as usize];
    let zeros = [0, 0, 1, 3, 40][random.below(5) as usize];
    let mut map = match random.below(2) {
        0 => IntMap::new(),
        _ => IntMap::with_capacity(random.below(400) as usize),
    };
    map.try_set_load_factor_thousandths(factor).expect("an empty map meets it");
    map.extend((0..random.below(200)).map(|value| (random.below(500) << zeros, value)));
    let kept = 1 + random.below(20);
    map.retain(|_, value| value % kept == 0);
    (map, factor)
}

#[test]
fn a_shrunk_map_is_a_new_one_of_its_pairs_in_order() {
    let (mut random, mut shrunk) = (Random(3), 0);
    for _ in 0..3000 {
        let (mut map, factor) = emptied(&mut random);
        let (before, least) = (map.clone(), random.below(3) as usize * random.below(100) as usize);
        map.shrink_to(least);
        let wanted = least.next_power_of_two().max(least_slots(before.len(), factor));
        assert_eq!(map.capacity(), wanted.min(before.capacity()), "{least} slots for {before:?}");
        assert_eq!((map.len(), map.load_factor_thousandths()), (before.len(), factor));
        let mut made = IntMap::with_capacity(map.capacity());
        made.try_set_load_factor_thousandths(factor).expect("an empty map meets it");
        made.extend(&before);
        assert!(map.iter().eq(&made), "{map:?} from {before:?}");
        shrunk += usize::from(map.capacity() < before.capacity());
        map.shrink_to_fit();
        assert_eq!(map.capacity(), before.capacity().min(least_slots(before.len(), factor)));
        assert!(map.assert_count() && map == before, "{map:?} from {before:?}");
    }
    assert!(shrunk > 1000, "only {shrunk} maps were shrunk");
}

#[test]
fn a_shrunk_set_is_a_new_one_of_its_members_in_order() {
    let mut random = Random(4);
    for _ in 0..300 {
        let (map, _) = emptied(&mut random);
        let mut set = IntSet::with_capacity(1000);
        set.extend(map.keys());
        let members = set.clone();
        set.shrink_to(17);
        assert_eq!(set.capacity(), least_slots(set.len(), 909).max(32));
        let mut made = IntSet::with_capacity(set.capacity());
        made.extend(&members);
        assert!(set.iter().eq(&made), "{set:?} from {members:?}");
        set.shrink_to_fit();
        assert_eq!((set.capacity(), set == members), (least_slots(members.len(), 909), true));
    }
}

#[test]
fn clone_from_makes_what_clone_makes() {
    let (mut random, mut kept) = (Random(12), [0; 2]);
    for _ in 0..3000 {
        let (mut map, (source, factor)) = (emptied(&mut random).0, emptied(&mut random));
        kept[0] += usize::from(map.capacity() == source.capacity());
        let mut set: IntSet<u64> = map.keys().copied().collect();
        map.clone_from(&source);
        assert!(map.iter().eq(&source), "{map:?} of {source:?}");
        assert_eq!((map.capacity(), map.len()), (source.capacity(), source.len()));
        assert_eq!((map.load_factor_thousandths(), map.assert_count()), (factor, true));
        let mut members: IntSet<u64> = source.keys().copied().collect();
        members.try_set_load_factor_thousandths(factor).expect("there is memory");
        kept[1] += usize::from(set.capacity() == members.capacity() && factor != 909);
        set.clone_from(&members);
        assert!(set.iter().eq(&members), "{set:?} of {members:?}");
        assert_eq!((set.capacity(), set.len()), (members.capacity(), members.len()));
        assert_eq!(set.load_factor_thousandths(), factor, "{set:?} of {members:?}");
    }
    assert!(kept.iter().all(|it| *it > 300), "only {kept:?} maps and sets kept their slots");
}

#[test]
fn more_pairs_than_a_usize_counts_are_too_many() {
    for reserve in [IntMap::try_reserve_pairs, IntMap::try_reserve_insertions] {
        assert_eq!(reserve(&mut IntMap::from([(1u64, 'a')]), usize::MAX), Err(Cause::TooLarge));
    }
    for reserve in [IntSet::try_reserve_members, IntSet::try_reserve_insertions] {
        assert_eq!(reserve(&mut IntSet::from([1u64]), usize::MAX), Err(Cause::TooLarge));
    }
}
