//! Random calls with a panic at a random place of each.
use crate::fuse::{Value, burn, is_whole, live, panics_at};
use crate::random::Random;
use intmap_proved::{Entry, IntMap};

const ROUNDS: u64 = 120;
const CALLS: u64 = 150;

/// What one call is given.
struct Given {
    key: u64,
    number: u64,
    shift: u64,
}

impl Given {
    fn pairs(&self) -> impl Iterator<Item = (u64, Value)> + '_ {
        (0..self.number % 9).map(|it| {
            burn();
            ((self.key + it) << self.shift, Value::new(it))
        })
    }
}

fn write(value: &mut Value, number: u64) {
    burn();
    value.0 = number;
}

fn made(number: u64) -> Value {
    burn();
    Value::new(number)
}

/// Calls on one key.
fn call_on_key(map: &mut IntMap<u64, Value>, call: u64, given: &Given) {
    let Given { key, number, .. } = *given;
    match call {
        0..4 => drop(map.insert(key, Value::new(number))),
        4 => drop(map.insert_checked(key, Value::new(number))),
        5 => drop(map.remove(key)),
        6 => *map.entry(key).or_insert_with(|| made(number)) = Value::new(number + 1),
        7 => {
            let entry = map.entry(key).and_modify(|value| write(value, number));
            entry.or_insert(Value::new(number));
        }
        8 => {
            if let Entry::Occupied(mut entry) = map.entry(key) {
                entry.insert(Value::new(number));
                entry.remove_entry();
            }
        }
        9 => drop(map.entry(key).insert_entry(Value::new(number)).remove()),
        _ => {
            if let Entry::Occupied(entry) = map.entry(key) {
                let handed = entry.hand_over(|value| {
                    burn();
                    if number % 3 == 0 { Ok(value) } else { Err(value) }
                });
                burn();
                drop(handed);
            }
        }
    }
}

/// Calls on all pairs.
fn call_on_all(map: &mut IntMap<u64, Value>, call: u64, given: &Given) {
    let number = given.number;
    match call {
        0 => map.retain(|key, value| {
            burn();
            (key ^ value.0 ^ number) % 3 != 0
        }),
        1 => map.drain().take((number % 9) as usize).for_each(|_| burn()),
        2 if number % 8 == 0 => map.clear(),
        3 => {
            let clone = map.clone();
            burn();
            assert!(clone == *map, "a clone is equal");
        }
        4 => map.extend(given.pairs()),
        5 => map.values_mut().for_each(|value| write(value, number)),
        6 => *map = map.drain().inspect(|_| burn()).collect(),
        7 => {
            let mut pairs = std::mem::take(map).into_iter();
            pairs.by_ref().take((number % 5) as usize).for_each(|_| burn());
            map.extend(pairs);
        }
        8 => {
            let picked = map.extract_if(|_, value| {
                write(value, number);
                number % 3 == 0
            });
            picked.take(5).for_each(drop);
        }
        _ => drop(given.pairs().collect::<IntMap<u64, Value>>()),
    }
}

/// One call with a panic at a random place, on one half of the calls.
fn call(map: &mut IntMap<u64, Value>, random: &mut Random, keys: u64, shift: u64) -> bool {
    let given = Given { key: random.below(keys) << shift, number: random.next() >> 1, shift };
    let number = if random.below(2) == 0 { 0 } else { random.below(12) };
    let (is_on_key, call) = (random.below(5) < 3, random.below(110));
    let panicked = panics_at(number, || match is_on_key {
        true => call_on_key(map, call % 11, &given),
        false => call_on_all(map, call % 10, &given),
    });
    is_whole(map, &format!("after call {call}, on a key: {is_on_key}, place {number}"));
    panicked
}

#[test]
fn a_panic_in_any_call_leaves_a_whole_map() {
    let mut random = Random(5);
    let mut panics = 0;
    for round in 0..ROUNDS {
        let mut map = IntMap::new();
        if round % 2 == 0 {
            map.set_load_factor(random.below(8000) as f32 / 1000.0 + 0.3);
        }
        let keys = [4, 20, 100][random.below(3) as usize];
        let shift = [0, 1, 30][random.below(3) as usize];
        if round % 3 == 0 {
            // most keys have a slot of their own
            map.reserve(keys as usize);
        }
        for _ in 0..CALLS {
            panics += u64::from(call(&mut map, &mut random, keys, shift));
        }
        drop(map);
        assert_eq!(live(), 0, "values that live after round {round}");
    }
    assert!(panics > 1000, "only {panics} panics");
}
