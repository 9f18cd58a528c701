//! Random calls, each with each of its requests failing in turn.
use crate::allocator::{bytes, failing_at};
use crate::random::Random;
use intmap_proved::{Cause, Entry, IntMap};
use std::cell::Cell;
use std::rc::Rc;

const ROUNDS: u64 = 100;
const CALLS: u64 = 300;

/// A value that counts the values that live.
#[derive(Debug)]
struct Counted(u64, Rc<Cell<usize>>);

impl Counted {
    fn new(number: u64, live: &Rc<Cell<usize>>) -> Counted {
        live.set(live.get() + 1);
        Counted(number, live.clone())
    }
}

impl Clone for Counted {
    fn clone(&self) -> Counted {
        Counted::new(self.0, &self.1)
    }
}

impl Drop for Counted {
    fn drop(&mut self) {
        self.1.set(self.1.get() - 1);
    }
}

type Map = IntMap<u64, Counted>;
type State = (Vec<(u64, u64)>, usize, usize, usize);

fn state_of(map: &Map, live: &Rc<Cell<usize>>) -> State {
    let pairs = map.iter().map(|(key, value)| (*key, value.0)).collect();
    (pairs, map.capacity(), map.load_factor_thousandths(), live.get())
}

/// One random call, the same each time that it is made.
struct Call {
    call: u64,
    key: u64,
    number: u64,
    more: usize,
}

impl Call {
    fn on(&self, map: &mut Map, live: &Rc<Cell<usize>>) -> Result<(), Cause> {
        let Call { call, key, number, more } = *self;
        let value = || Counted::new(number, live);
        match call {
            0..4 => drop(map.try_insert(key, value())?),
            4 => drop(map.try_insert_checked(key, value())?),
            5 => match map.entry(key) {
                Entry::Vacant(entry) => drop(entry.try_insert(value()).map(drop)?),
                Entry::Occupied(entry) => drop(entry.remove()),
            },
            6 => map.try_reserve(more)?,
            7 => map.try_set_load_factor_thousandths(200 + more * 10)?,
            8 => map.retain(|key, value| (key ^ value.0 ^ number) % 3 > 0),
            9 => map.drain().take(more % 7).for_each(drop),
            10 => drop(map.try_clone()?),
            11 => drop(map.entry(key).try_or_insert_with(value).map(drop)?),
            12 => drop(Map::try_with_capacity(more)?),
            13 => map.try_shrink_to(more / 8)?,
            14 => map.try_reserve_pairs(more)?,
            15 => map.try_reserve_insertions(more)?,
            _ => drop(map.remove(key)),
        }
        Ok(())
    }
}

/// Makes a call until none of its requests fails. Returns how many failed.
fn until_it_succeeds(map: &mut Map, call: &Call, live: &Rc<Cell<usize>>) -> u64 {
    for number in 1.. {
        let (before, held) = (state_of(map, live), bytes());
        let (returned, failed) = failing_at(number, || call.on(map, live));
        if returned.is_ok() {
            return number - 1;
        }
        assert_eq!((returned, failed), (Err(Cause::Memory), true), "call {}", call.call);
        assert_eq!(bytes(), held, "bytes after call {}, request {number}", call.call);
        assert_eq!(state_of(map, live), before, "call {}, request {number}", call.call);
    }
    unreachable!()
}

fn round(random: &mut Random, live: &Rc<Cell<usize>>) -> u64 {
    let mut map = Map::new();
    let keys = [5, 30, 200][random.below(3) as usize];
    let shift = [0, 1, 20][random.below(3) as usize];
    if random.below(2) == 0 {
        map.set_load_factor(random.below(5000) as f32 / 1000.0 + 0.3);
    }
    if random.below(3) == 0 {
        // most keys have a slot of their own
        map.reserve(keys as usize);
    }
    // keys in order have slots of their own, up to one that shares the slot of another
    let counts_up = random.below(3) == 0;
    let mut failures = 0;
    for place in 0..CALLS {
        let key = match counts_up && random.below(16) > 0 {
            true => place,
            false => random.below(keys) + random.below(9) / 8 * 512,
        };
        let call = Call {
            call: match random.below(if counts_up { 7 } else { 18 }) {
                6 if counts_up => 13,
                call => call,
            },
            key: key << shift,
            number: random.next(),
            more: random.below(200) as usize,
        };
        failures += until_it_succeeds(&mut map, &call, live);
        assert!(map.assert_count());
        assert_eq!(live.get(), map.len(), "values that live");
    }
    failures
}

#[test]
fn a_failed_call_leaves_the_map_and_its_values() {
    let live = Rc::new(Cell::new(0));
    let mut random = Random(7);
    let (before, mut failures) = (bytes(), 0);
    for number in 0..ROUNDS {
        failures += round(&mut random, &live);
        assert_eq!(live.get(), 0, "values that live after round {number}");
        assert_eq!(bytes(), before, "bytes left after round {number}");
    }
    assert!(failures > 1000, "only {failures} failures");
}
