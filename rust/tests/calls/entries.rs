//! Entries: closures that are called or not, errors of theirs, and growth. The lines of `table`
//! have each call on a key that is present and on one that is absent.
use intmap_proved::{IntMap, Refused};

/// Why a closure of a test makes no value.
struct Failed;

impl From<Refused<i32>> for Failed {
    fn from(_: Refused<i32>) -> Failed {
        Failed
    }
}

impl From<Failed> for String {
    fn from(_: Failed) -> String {
        "failed".into()
    }
}

#[test]
fn an_absent_key_is_inserted_by_its_entry() {
    let mut map = IntMap::new();
    *map.entry(1_u64).or_insert(10) += 1;
    *map.entry(1).or_insert(20) += 1;
    *map.entry(2).or_insert_with(|| 30) += 1;
    map.entry(2).or_insert_with(|| unreachable!());
    *map.entry(3).or_insert_with_key(|key| *key) += 1;
    map.entry(3).or_insert_with_key(|_| unreachable!());
    *map.entry(4).or_default() += 1;
    *map.entry(4).or_default() += 1;
    assert_eq!(map, IntMap::from([(1, 12), (2, 31), (3, 4), (4, 2)]));
}

#[test]
fn a_closure_that_fails_inserts_nothing() {
    fn parsed(map: &mut IntMap<u64, i32>, text: &str) -> Result<i32, String> {
        Ok(*map.entry(1).or_try_insert_with(|| text.parse().map_err(|_| Failed))?)
    }
    let mut map = IntMap::new();
    assert_eq!((parsed(&mut map, "one"), map.len()), (Err("failed".into()), 0));
    assert_eq!((parsed(&mut map, "1"), map.len()), (Ok(1), 1));
    assert_eq!(parsed(&mut map, "two"), Ok(1), "no closure is called for a present key");
}

#[test]
fn an_entry_that_was_inserted_is_occupied() {
    let mut map = IntMap::from([(1_u64, 10)]);
    let mut present = map.entry(1).insert_entry(11);
    assert_eq!((*present.key(), *present.get(), present.insert(12)), (1, 11, 11));
    let absent = map.entry(2).insert_entry(20);
    assert_eq!((*absent.key(), *absent.get()), (2, 20));
    assert_eq!(absent.remove_entry(), (2, 20));
    assert_eq!(map, IntMap::from([(1, 12)]));
}

#[test]
fn an_entry_grows_a_full_map() {
    for keys in [4_u64, 8, 1000, 4096] {
        let mut map = IntMap::new();
        for key in 0..keys {
            assert_eq!(*map.entry(key).or_insert(key + 1), key + 1, "of {keys}");
        }
        let mut inserted = IntMap::new();
        inserted.extend((0..keys).map(|key| (key, key + 1)));
        assert_eq!((map.capacity(), &map), (inserted.capacity(), &inserted), "of {keys}");
        assert!(map.iter().eq(inserted.iter()), "of {keys}");
    }
}
