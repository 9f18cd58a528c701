//! Keys that break the promise of their type: their number changes from call to call, or panics.
//! Calls may then return anything, lose pairs or panic, but drop each value once.
use crate::fuse::{burn, panics_at};
use crate::random::Random;
use intmap_proved::{Entry, IntKey, IntMap, IntSet};
use std::cell::{Cell, RefCell};
use std::rc::Rc;

const ROUNDS: u64 = 200;
const CALLS: u64 = 300;

thread_local!(static LIES: RefCell<Random> = const { RefCell::new(Random(1)) });

#[derive(Clone, Copy, PartialEq, Eq)]
struct Liar(u64);

impl IntKey for Liar {
    fn number(&self) -> u64 {
        burn();
        let lie = LIES.with_borrow_mut(Random::next);
        match lie % 4 {
            0 => lie >> 52,
            _ => self.0,
        }
    }
}

fn call(map: &mut IntMap<Liar, Rc<()>>, call: u64, key: Liar, value: &Rc<()>) {
    match call {
        0..4 => drop(map.insert(key, value.clone())),
        4 => drop(map.remove(key)),
        5 => map.retain(|key, _| key.0 % 3 > 0),
        6 => map.values_mut().for_each(|it| *it = value.clone()),
        7 => match map.entry(key) {
            Entry::Occupied(entry) => drop(entry.remove_entry()),
            Entry::Vacant(entry) => drop(entry.insert(value.clone()).clone()),
        },
        8 => map.drain().take(3).for_each(drop),
        9 => drop(map.clone()),
        10 => drop(map.extract_if(|key, _| key.0 % 2 == 0).next()),
        11 => {
            if let Entry::Occupied(entry) = map.entry(key) {
                let handed = entry.hand_over(|it| if key.0 > 99 { Ok(it) } else { Err(it) });
                drop(handed);
            }
        }
        _ => map.extend((0..5).map(|number| (Liar(key.0 + number), value.clone()))),
    }
}

#[test]
fn keys_that_lie_drop_each_value_once() {
    let (value, mut random, mut panics) = (Rc::new(()), Random(2), 0);
    for round in 0..ROUNDS {
        let mut map = IntMap::with_capacity([4, 256][round as usize % 2]);
        for _ in 0..CALLS {
            let (key, number) = (Liar(random.below(200)), random.below(13));
            let place = if random.below(5) == 0 { random.below(16) } else { 0 };
            panics += u64::from(panics_at(place, || call(&mut map, number, key, &value)));
        }
        assert!(Rc::strong_count(&value) > map.iter().count(), "values live, round {round}");
        drop(map);
        assert_eq!(Rc::strong_count(&value), 1, "values that live after round {round}");
    }
    assert!(panics > 1000, "only {panics} panics");
}

#[test]
fn a_set_of_keys_that_lie_ends_each_call() {
    let mut random = Random(3);
    let mut set = IntSet::new();
    for _ in 0..20_000 {
        let (key, number) = (Liar(random.below(200)), random.below(4));
        panics_at(random.below(8), || match number {
            0..2 => _ = set.insert(key),
            2 => _ = set.remove(key),
            _ => set.retain(|key| key.0 % 3 > 0),
        });
        assert!(set.iter().count() <= 20_000);
    }
}

type Growth<T> = (&'static str, fn(&mut T));

/// Keys with which a map of 40 grows.
fn new_keys() -> impl Iterator<Item = Liar> {
    (100..160).map(Liar)
}

const MAP_GROWTHS: [Growth<IntMap<Liar, u64>>; 9] = [
    ("reserve", |map| map.reserve(300)),
    ("reserve_pairs", |map| map.reserve_pairs(300)),
    ("reserve_insertions", |map| map.reserve_insertions(300)),
    ("set_load_factor", |map| map.set_load_factor(0.1)),
    ("insert", |map| new_keys().for_each(|key| _ = map.insert(key, 1))),
    ("insert_checked", |map| new_keys().for_each(|key| _ = map.insert_checked(key, 1))),
    ("insert_entry", |map| new_keys().for_each(|key| _ = map.entry(key).insert_entry(1))),
    ("insert of a vacant entry", |map| {
        for key in new_keys() {
            if let Entry::Vacant(entry) = map.entry(key) {
                entry.insert(1);
            }
        }
    }),
    ("extend", |map| map.extend(new_keys().map(|key| (key, 1)))),
];

const SET_GROWTHS: [Growth<IntSet<Liar>>; 6] = [
    ("reserve", |set| set.reserve(300)),
    ("reserve_members", |set| set.reserve_members(300)),
    ("reserve_insertions", |set| set.reserve_insertions(300)),
    ("set_load_factor", |set| set.set_load_factor(0.1)),
    ("insert", |set| new_keys().for_each(|key| _ = set.insert(key))),
    ("extend", |set| set.extend(new_keys())),
];

#[test]
fn a_panic_in_growth_of_keys_that_lie_leaves_no_slot_marked_that_holds_none() {
    let mut panics = 0;
    for place in 1..250 {
        for (name, grow) in MAP_GROWTHS {
            let mut map = IntMap::with_capacity(64);
            map.extend((0..40).map(|key| (Liar(key), key)));
            panics += u64::from(panics_at(place, || grow(&mut map)));
            assert_eq!(map.iter().count(), map.len(), "pairs after {name}, place {place}");
        }
        for (name, grow) in SET_GROWTHS {
            let mut set = IntSet::with_capacity(64);
            set.extend((0..40).map(Liar));
            panics += u64::from(panics_at(place, || grow(&mut set)));
            assert_eq!(set.iter().count(), set.len(), "members after {name}, place {place}");
        }
    }
    assert!(panics > 1000, "only {panics} panics");
}

thread_local!(static ADDED: Cell<u64> = const { Cell::new(0) });

/// A key whose number is the same one, but for the time of one call.
#[derive(Clone, Copy, PartialEq, Eq)]
struct Shifted(u64);

impl IntKey for Shifted {
    fn number(&self) -> u64 {
        burn();
        self.0 + ADDED.get()
    }
}

const SHIFTED_GROWTHS: [Growth<IntMap<Shifted, u64>>; 4] = [
    ("reserve", |map| map.reserve(200)),
    ("reserve_insertions", |map| map.reserve_insertions(1000)),
    ("set_load_factor", |map| map.set_load_factor(0.1)),
    ("insert", |map| _ = map.insert(Shifted(1 << 40), 1 << 40)),
];

/// A map of 64 slots that grows at the next new key. Half of its keys share slots.
fn shifted() -> IntMap<Shifted, u64> {
    let mut map = IntMap::with_capacity(64);
    let numbers = (0..30).chain((1..30).map(|it| (it % 7) + 64 * it));
    map.extend(numbers.map(|number| (Shifted(number), number)));
    assert_eq!((map.len(), map.capacity(), map.load()), (59, 64, 30));
    map
}

fn numbers_of(map: &IntMap<Shifted, u64>) -> Vec<u64> {
    let mut numbers: Vec<u64> = map.iter().map(|(key, value)| key.0 & value).collect();
    numbers.sort_unstable();
    numbers
}

#[test]
fn growth_by_other_numbers_than_those_of_insertion_loses_no_pair() {
    let (before, mut panics) = (numbers_of(&shifted()), 0);
    for ((name, grow), added) in
        SHIFTED_GROWTHS.into_iter().flat_map(|it| [1, 5, 64, 99].map(|added| (it, added)))
    {
        for place in 1.. {
            let (mut map, after) = (shifted(), format!("after {name}, place {place}, {added}"));
            ADDED.set(added);
            let panicked = panics_at(place, || grow(&mut map));
            ADDED.set(0);
            let mut numbers = numbers_of(&map);
            numbers.retain(|number| *number != 1 << 40);
            assert_eq!(numbers, before, "{after}");
            if !panicked {
                assert!(map.capacity() > 64, "{after}");
                break;
            }
            // each pair is back in the slot of its own number
            assert!(numbers.iter().all(|it| map.get(Shifted(*it)) == Some(it)), "{after}");
            panics += 1;
        }
    }
    assert!(panics > 500, "only {panics} panics");
}
