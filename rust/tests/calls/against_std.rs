//! Random calls, each compared with that of std's `HashMap`.
use crate::random::Random;
use intmap_proved::{Entry, IntMap};
use std::collections::HashMap;

const CALLS: u32 = 60_000;

struct Both {
    map: IntMap<u64, String>,
    plain: HashMap<u64, String>,
}

impl Both {
    fn insert(&mut self, key: u64, value: String) {
        assert_eq!(self.map.insert(key, value.clone()), self.plain.insert(key, value));
    }

    fn insert_checked(&mut self, key: u64, value: String) {
        let is_new = !self.plain.contains_key(&key);
        assert_eq!(self.map.insert_checked(key, value.clone()), is_new);
        self.plain.entry(key).or_insert(value);
    }

    fn append(&mut self, key: u64, value: &str) {
        let found = self.map.get_mut(key).map(|it| it.push_str(value));
        assert_eq!(found, self.plain.get_mut(&key).map(|it| it.push_str(value)));
    }

    fn remove_by_entry(&mut self, key: u64) {
        let gone = match self.map.entry(key) {
            Entry::Occupied(entry) => Some(entry.remove_entry()),
            Entry::Vacant(_) => None,
        };
        assert_eq!(gone, self.plain.remove_entry(&key));
    }

    fn append_to_entry(&mut self, key: u64, value: &str) {
        self.map.entry(key).or_default().push_str(value);
        self.plain.entry(key).or_default().push_str(value);
    }

    fn append_to_all(&mut self) {
        self.map.values_mut().for_each(|it| it.push('.'));
        self.plain.values_mut().for_each(|it| it.push('.'));
    }

    fn drain(&mut self, most: usize) {
        for (key, value) in self.map.drain().take(most) {
            assert_eq!(self.plain.remove(&key), Some(value));
        }
    }

    fn retain(&mut self, divisor: u64) {
        self.map.retain(|key, _| key % divisor != 0);
        self.plain.retain(|key, _| key % divisor != 0);
    }

    fn extract(&mut self, divisor: u64, most: usize) {
        let picked = |key: u64, value: &mut String| {
            value.push('!');
            key % divisor == 0
        };
        let order: Vec<u64> = self.map.keys().copied().collect();
        let gone: Vec<(u64, String)> = self.map.extract_if(picked).take(most).collect();
        let mut left = most;
        for key in order {
            if left == 0 {
                break;
            }
            self.plain.get_mut(&key).expect("it was present").push('!');
            if key % divisor == 0 {
                left -= 1;
                let pair = (key, self.plain.remove(&key).expect("it was present"));
                assert!(gone.contains(&pair), "{pair:?} of {gone:?}");
            }
        }
        assert_eq!(gone.len(), most - left);
    }

    fn replace_by_clone(&mut self) {
        let clone = self.map.clone();
        assert_eq!(clone, self.map);
        assert!(clone.iter().eq(self.map.iter()), "a clone has the order of its source");
        self.map = clone;
    }

    fn call(&mut self, random: &mut Random, keys: u64) {
        // some keys are far apart, so that they share a slot
        let key = random.below(keys) << (random.below(2) * 40);
        let value = random.below(100).to_string();
        match random.below(4000) {
            0 => self.map = self.map.drain().collect(),
            1 => self.replace_by_clone(),
            2 => self.append_to_all(),
            3 => self.retain(random.below(5) + 2),
            4 => self.extract(random.below(5) + 2, random.below(200) as usize),
            5..12 => self.drain(random.below(20) as usize),
            12 => self.map.reserve(random.below(1000) as usize),
            13 => self.map.set_load_factor(random.below(3000) as f32 / 1000.0 + 0.2),
            14..1300 => self.insert(key, value),
            1300..1600 => self.insert_checked(key, value),
            1600..1800 => self.append(key, &value),
            1800..2000 => self.append_to_entry(key, &value),
            2000..2600 => assert_eq!(self.map.remove(key), self.plain.remove(&key)),
            2600..2800 => self.remove_by_entry(key),
            2800..3000 => assert_eq!(self.map.get_key_value(key), self.plain.get_key_value(&key)),
            _ => assert_eq!(self.map.get(key), self.plain.get(&key)),
        }
    }

    fn compare(&self) {
        assert_eq!(self.map.len(), self.plain.len());
        assert!(self.map.assert_count());
        let pairs: HashMap<u64, String> = self.map.iter().map(|(k, v)| (*k, v.clone())).collect();
        assert_eq!(pairs, self.plain);
    }
}

#[test]
fn random_calls_return_what_those_of_std_return() {
    for keys in [16, 300, 20_000] {
        let mut random = Random(keys);
        let mut both = Both { map: IntMap::new(), plain: HashMap::new() };
        for number in 0..CALLS {
            both.call(&mut random, keys);
            if number % 1000 == 0 {
                both.compare();
            }
        }
        both.compare();
    }
}
