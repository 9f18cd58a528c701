//! Values of all kinds: counted, without a size, aligned widely, of 4 KB, without any value.
use intmap_proved::{Entry, IntMap};
use std::cell::Cell;
use std::rc::Rc;

/// A value that counts the values that live.
struct Counted(u64, Rc<Cell<i64>>);

impl Drop for Counted {
    fn drop(&mut self) {
        self.1.set(self.1.get() - 1);
    }
}

impl Clone for Counted {
    fn clone(&self) -> Counted {
        Counter(self.1.clone()).value(self.0)
    }
}

struct Counter(Rc<Cell<i64>>);

impl Counter {
    fn new() -> Counter {
        Counter(Rc::new(Cell::new(0)))
    }

    fn value(&self, number: u64) -> Counted {
        self.0.set(self.0.get() + 1);
        Counted(number, Rc::clone(&self.0))
    }

    /// A map of about six pairs a slot.
    fn map(&self, keys: u64) -> IntMap<u64, Counted> {
        let mut map = IntMap::with_capacity(2);
        map.set_load_factor(8.0);
        map.extend((0..keys).map(|key| (key, self.value(key))));
        map
    }

    #[track_caller]
    fn lives(&self, wanted: i64) {
        assert_eq!(self.0.get(), wanted, "values live");
    }
}

#[test]
fn a_map_drops_its_values() {
    let counter = Counter::new();
    let map = counter.map(100);
    let clone = map.clone();
    counter.lives(200);
    drop(map);
    counter.lives(100);
    drop(clone);
    counter.lives(0);
}

#[test]
fn an_insertion_returns_or_drops_one_value() {
    let counter = Counter::new();
    let mut map = counter.map(10);
    assert_eq!(map.insert(3, counter.value(30)).map(|it| it.0), Some(3));
    counter.lives(10);
    assert!(!map.insert_checked(3, counter.value(31)));
    map.entry(3).or_insert(counter.value(32));
    counter.lives(10);
    assert_eq!(map.get(3).map(|it| it.0), Some(30));
    map.extend((8..12).map(|key| (key, counter.value(key))));
    counter.lives(12);
}

#[test]
fn removals_drop_what_they_remove() {
    let counter = Counter::new();
    let mut map = counter.map(100);
    map.remove(5);
    counter.lives(99);
    if let Entry::Occupied(entry) = map.entry(6) {
        entry.remove();
    }
    counter.lives(98);
    map.retain(|key, value| {
        assert_eq!(key, value.0);
        key % 2 == 0
    });
    counter.lives(49);
    drop(map.extract_if(|key, _| key % 4 == 0).next());
    counter.lives(48);
    map.clear();
    counter.lives(0);
    map.insert(1, counter.value(1));
    counter.lives(1);
}

#[test]
fn an_iterator_that_ends_early_loses_no_value() {
    let counter = Counter::new();
    let mut map = counter.map(100);
    assert_eq!(map.drain().take(30).count(), 30);
    counter.lives(70);
    assert_eq!((map.len(), map.iter().count()), (70, 70));
    let mut rest = map.into_iter();
    let first = rest.next();
    drop(rest);
    counter.lives(1);
    drop(first);
    counter.lives(0);
    let mut keys = counter.map(10).into_keys();
    keys.next();
    counter.lives(9);
    drop(keys);
    counter.lives(0);
}

#[test]
fn a_map_of_maps_drops_each_value_once() {
    let counter = Counter::new();
    let mut outer: IntMap<u64, IntMap<u64, Counted>> = IntMap::new();
    for key in 0..100 {
        outer.entry(key % 10).or_default().insert(key, counter.value(key));
    }
    counter.lives(100);
    let clone = outer.clone();
    drop(outer);
    counter.lives(100);
    drop(clone);
    counter.lives(0);
}

/// A value that takes its map back when it is dropped, and changes it.
struct Reentrant {
    map: Rc<Cell<Option<IntMap<u64, Reentrant>>>>,
    key: u64,
}

impl Drop for Reentrant {
    fn drop(&mut self) {
        let Some(mut map) = self.map.take() else { return };
        map.remove(self.key + 1);
        map.insert(self.key + 1000, Reentrant { map: Rc::default(), key: 0 });
        self.map.set(Some(map));
    }
}

#[test]
fn a_value_that_was_removed_may_change_the_map() {
    let place = Rc::new(Cell::new(None));
    let value = |key| (key, Reentrant { map: place.clone(), key });
    let mut map: IntMap<u64, Reentrant> = (0..50).map(value).collect();
    let removed = map.remove(3);
    place.set(Some(map));
    drop(removed);
    let map = place.take().expect("the map was put back");
    assert!(map.contains_key(1003) && !map.contains_key(3) && !map.contains_key(4));
    assert!(map.assert_count() && map.len() == 49);
}

thread_local!(static EMPTY_DROPS: Cell<u64> = const { Cell::new(0) });

#[derive(Clone, PartialEq, Debug)]
struct Empty;

impl Drop for Empty {
    fn drop(&mut self) {
        EMPTY_DROPS.set(EMPTY_DROPS.get() + 1);
    }
}

#[test]
fn values_without_a_size_are_counted_and_dropped() {
    let mut map: IntMap<u64, Empty> = (0..1000).map(|key| (key * 8, Empty)).collect();
    assert!((0..500).all(|key| map.remove(key * 8).is_some()));
    assert_eq!((EMPTY_DROPS.get(), map.iter().count(), map.values_mut().count()), (500, 500, 500));
    drop(map.clone());
    assert_eq!(EMPTY_DROPS.get(), 1000);
    drop(map);
    assert_eq!(EMPTY_DROPS.get(), 1500);
}

#[test]
fn a_map_may_have_values_of_a_type_without_any() {
    enum Never {}
    let mut map: IntMap<u64, Never> = IntMap::new();
    assert!(map.get(1).is_none() && map.remove(1).is_none() && map.iter().next().is_none());
    assert_eq!((map.len(), map.capacity()), (0, 4));
}

#[derive(Clone, PartialEq, Debug)]
#[repr(align(4096))]
struct Aligned(u16);

impl Aligned {
    #[track_caller]
    fn is_aligned(&self) {
        assert_eq!(std::ptr::from_ref(self).addr() % 4096, 0, "of {}", self.0);
    }
}

#[test]
fn values_are_as_aligned_as_their_type() {
    let mut map: IntMap<u64, Aligned> = (0..200).map(|it| (it << (it % 5), Aligned(1))).collect();
    for (_, value) in &mut map {
        value.is_aligned();
        value.0 += 1;
    }
    map.values().for_each(Aligned::is_aligned);
    let clone = map.clone();
    clone.values().for_each(Aligned::is_aligned);
    assert_eq!(clone, map);
    let sum: u16 = map.drain().map(|(_, value)| value.0).sum();
    assert_eq!(sum as usize, 2 * clone.len());
}

type Page = [u8; 4096];

fn page(number: u64) -> Page {
    let mut page = [number as u8; 4096];
    page[4088..].copy_from_slice(&number.to_le_bytes());
    page
}

#[test]
fn values_of_four_kilobytes_stay_whole() {
    // every third key shares a slot with others
    let key_of = |number: u64| if number % 3 == 0 { number << 20 } else { number };
    let mut map: IntMap<u64, Page> = (0..200).map(|it| (key_of(it), page(it))).collect();
    for number in 0..200 {
        assert_eq!(map.insert(key_of(number), page(number + 1)), Some(page(number)), "{number}");
    }
    map.retain(|_, value| value[0] % 2 == 1);
    assert_eq!(map.len(), 100);
    for (key, value) in map.drain() {
        let number = u64::from_le_bytes(value[4088..].try_into().expect("8 bytes"));
        assert_eq!((key, value), (key_of(number - 1), page(number)));
    }
}

#[test]
fn pairs_that_come_and_go_take_no_further_slots() {
    let counter = Counter::new();
    let mut map = IntMap::new();
    for key in 0..10_000 {
        map.insert(key, counter.value(key));
        if key >= 5 {
            assert_eq!(map.remove(key - 5).map(|it| it.0), Some(key - 5));
        }
    }
    counter.lives(5);
    assert_eq!((map.len(), map.capacity()), (5, 8));
}
