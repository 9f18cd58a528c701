//! Slots, load factors, and the numbers that a map has of itself.
use intmap_proved::{Cause, IntMap, IntSet};
use std::panic::catch_unwind;

#[test]
fn a_new_map_has_four_slots_and_a_given_capacity_is_rounded_up() {
    assert_eq!(IntMap::<u64, u8>::new().capacity(), 4);
    assert_eq!(IntMap::<u64, u8>::default().capacity(), 4);
    for (asked, slots) in [(0, 2), (1, 2), (2, 2), (3, 4), (20, 32), (32, 32), (33, 64)] {
        assert_eq!(IntMap::<u64, u8>::with_capacity(asked).capacity(), slots, "of {asked}");
    }
}

#[test]
fn a_map_grows_at_its_load_factor() {
    let mut map = IntMap::new();
    let mut slots = Vec::new();
    for key in 0..16_u64 {
        map.insert(key, ());
        slots.push(map.capacity());
    }
    assert_eq!(slots, [4, 4, 4, 8, 8, 8, 8, 8, 8, 8, 8, 16, 16, 16, 32, 32]);
}

#[test]
fn a_load_factor_decides_the_slots() {
    for (factor, keys, slots, rate) in [(0.1, 12, 128, 9.375), (2.0, 16, 8, 200.0)] {
        let mut map = IntMap::new();
        map.set_load_factor(factor);
        map.extend((0..keys).map(|it| (it, it)));
        assert_eq!((map.get_load_factor(), map.capacity()), (factor, slots), "of {factor}");
        assert_eq!(map.load_rate(), rate, "of {factor}");
    }
}

#[test]
fn a_load_factor_of_zero_takes_the_most_slots_that_it_asks_for() {
    let mut map: IntMap<u64, u64> = (0..4).map(|key| (key, key)).collect();
    map.set_load_factor(0.0);
    assert_eq!((map.capacity(), map.len()), (4096, 4), "a thousandth of a pair a slot");
}

#[test]
fn a_load_factor_is_cut_to_thousandths() {
    let mut map = IntMap::<u64, ()>::new();
    for (factor, thousandths) in
        [(0.9, 900), (0.9999, 999), (0.0019, 1), (1.2345, 1234), (9.9999, 9999), (-1.0, 0)]
    {
        map.set_load_factor(factor);
        assert_eq!(map.load_factor_thousandths(), thousandths, "of {factor}");
    }
}

#[test]
fn a_debug_build_tells_a_percentage_and_what_is_no_number() {
    let unlikely = [(10.0, 10_000), (90.9, 90_900), (f32::INFINITY, usize::MAX), (f32::NAN, 0)];
    for (factor, thousandths) in unlikely {
        let set = catch_unwind(|| {
            let (mut map, mut set) = (IntMap::<u64, ()>::new(), IntSet::<u64>::new());
            map.set_load_factor(factor);
            set.set_load_factor(factor);
            (map.load_factor_thousandths(), set.load_factor_thousandths())
        });
        let due = (thousandths, thousandths);
        assert_eq!(set.ok(), (!cfg!(debug_assertions)).then_some(due), "of {factor}");
    }
}

#[test]
fn reserved_slots_hold_that_many_more_pairs() {
    let mut map = IntMap::from([(21_u64, 'a')]);
    map.reserve(9001);
    assert_eq!(map.capacity(), 16_384);
    map.reserve(9001);
    assert_eq!((map.capacity(), map.len()), (16_384, 1), "there were enough");
}

#[test]
fn too_many_slots_are_told_from_missing_memory() {
    let mut map = IntMap::from([(1_u64, 'a'), (2, 'b')]);
    let before = format!("{map:?} {}", map.capacity());
    for (more, cause) in [
        ((1 << 63) - 2, Cause::Memory),
        ((1 << 63) - 1, Cause::TooLarge),
        (usize::MAX, Cause::TooLarge),
    ] {
        assert_eq!(map.try_reserve(more), Err(cause), "{more} more");
        assert_eq!(format!("{map:?} {}", map.capacity()), before, "{more} more");
    }
    assert_eq!(IntMap::<u64, ()>::try_with_capacity(1 << 62).err(), Some(Cause::Memory));
    assert_eq!(IntMap::<u64, ()>::try_with_capacity((1 << 63) + 1).err(), Some(Cause::TooLarge));
}

#[test]
#[should_panic]
fn too_many_slots_end_the_call() {
    drop(IntMap::<u64, u8>::with_capacity(usize::MAX));
}

#[test]
fn keys_that_share_slots_are_counted() {
    let mut map = IntMap::with_capacity(8);
    map.set_load_factor(9.0);
    map.extend([0_u64, 1, 2, 8, 9, 16, 5].map(|key| (key, ())));
    assert_eq!((map.len(), map.load(), map.load_rate()), (7, 4, 87.5));
    assert_eq!(map.collisions(), IntMap::from([(2, 1), (3, 1)]), "of {map:?}");
    assert!(map.assert_count());
    map.clear();
    assert_eq!((map.len(), map.load(), map.capacity(), map.load_rate()), (0, 0, 8, 0.0));
    assert!(map.collisions().is_empty());
}
