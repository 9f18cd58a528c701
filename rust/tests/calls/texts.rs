//! The texts of maps, sets, entries, iterators and errors.
use intmap_proved::{Cause, IntMap, IntSet, Refused, RefusedPair};
use std::error::Error;
use std::hash::{BuildHasher, BuildHasherDefault, DefaultHasher};

#[test]
fn maps_and_sets_have_the_texts_of_std() {
    let map = IntMap::from([(0_u64, 1), (1, 2), (2, 3)]);
    assert_eq!(format!("{map:?}"), "{0: 1, 1: 2, 2: 3}");
    assert_eq!(format!("{map:#?}"), "{\n    0: 1,\n    1: 2,\n    2: 3,\n}");
    assert_eq!(format!("{:?}", IntMap::<u64, u8>::default()), "{}");
    assert_eq!(format!("{:?} {:?}", IntSet::from([0, 1, 2]), IntSet::<i64>::new()), "{0, 1, 2} {}");
}

#[test]
fn texts_have_each_of_many_pairs() {
    let map: IntMap<u64, u64> = (0..1000).map(|key| (key, key + 10)).collect();
    let pairs: Vec<_> = map.iter().map(|(key, value)| format!("{key}: {value}")).collect();
    assert_eq!(format!("{map:?}"), format!("{{{}}}", pairs.join(", ")));
    let set: IntSet<u64> = (0..1000).collect();
    let members: Vec<_> = set.iter().map(|key| key.to_string()).collect();
    assert_eq!(format!("{set:?}"), format!("{{{}}}", members.join(", ")));
    assert_eq!(format!("{:?}", map.values()), format!("{:?}", map.values().collect::<Vec<_>>()));
}

#[test]
fn entries_have_texts() {
    let mut map = IntMap::from([(21_u64, 'a')]);
    assert_eq!(format!("{:?}", map.entry(21)), "Entry(OccupiedEntry { key: 21, value: 'a' })");
    assert_eq!(format!("{:?}", map.entry(22)), "Entry(VacantEntry(22))");
}

#[test]
fn iterators_have_the_texts_of_what_is_left() {
    let map = IntMap::from([(0_u64, 'a'), (1, 'b'), (2, 'c')]);
    let mut pairs = map.iter();
    pairs.next();
    assert_eq!(format!("{pairs:?}"), "[(1, 'b'), (2, 'c')]");
    assert_eq!(format!("{:?} {:?}", map.keys(), map.values()), "[0, 1, 2] ['a', 'b', 'c']");
}

#[test]
fn errors_say_why_and_are_equal_if_they_say_the_same() {
    let refused = Refused { value: 'a', cause: Cause::Memory };
    assert!(refused == Refused { ..refused } && refused != Refused { value: 'b', ..refused });
    assert_ne!(refused, Refused { cause: Cause::TooLarge, ..refused });
    assert_eq!(refused.to_string(), "the value could not be inserted: out of memory");
    assert_eq!(Cause::from(refused), Cause::Memory);
    let refused = RefusedPair { key: 7_u64, value: 'a', applied: 3, cause: Cause::TooLarge };
    assert!(refused == RefusedPair { ..refused } && refused != RefusedPair { key: 8, ..refused });
    assert_ne!(refused, RefusedPair { value: 'b', ..refused });
    assert_ne!(refused, RefusedPair { applied: 4, ..refused });
    assert_ne!(refused, RefusedPair { cause: Cause::Memory, ..refused });
    assert_eq!(refused.to_string(), "a pair could not be inserted, after 3 others: too large");
    assert_eq!(Cause::from(refused), Cause::TooLarge);
}

#[test]
fn errors_are_cloned_and_causes_are_hashed() {
    let refused = Refused { value: String::from("a"), cause: Cause::TooLarge };
    assert_eq!(refused.clone(), refused);
    let refused =
        RefusedPair { key: 7_u64, value: refused.value, applied: 3, cause: Cause::Memory };
    assert_eq!(refused.clone(), refused);
    let hash_of = |cause: Cause| BuildHasherDefault::<DefaultHasher>::default().hash_one(cause);
    assert_eq!(hash_of(Cause::Memory), hash_of(refused.cause));
    assert_ne!(hash_of(Cause::Memory), hash_of(Cause::TooLarge));
}

#[test]
fn a_failed_call_is_passed_on_by_a_question_mark() {
    fn fails() -> Result<(), Box<dyn Error>> {
        IntMap::<u64, u8>::try_with_capacity(usize::MAX)?;
        Ok(())
    }
    fn inserts(map: &mut IntMap<u64, u8>) -> Result<(), Cause> {
        map.try_insert(1, 2)?;
        map.try_extend([(3, 4)])?;
        Ok(())
    }
    let mut map = IntMap::new();
    assert_eq!((inserts(&mut map), map.len()), (Ok(()), 2));
    assert_eq!(fails().unwrap_err().to_string(), Cause::TooLarge.to_string());
}
