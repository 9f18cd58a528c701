//! A plain list of pairs that stands for a map or a set. A call on it returns and leaves what the
//! same call on the map does, and counts the numbers of keys that the map is due to read: a search
//! reads that of the sought key once, and a comparison that of the stored key.
use crate::told::{Key, Shows};
use std::cell::Cell;
use std::collections::BTreeMap;

mod growth;
mod sets;

/// By which the number of a key is multiplied for its slot.
const MULTIPLIER: u64 = 11400714819323198549;

/// The slot of a number among so many.
fn slot_among(number: u64, slots: usize) -> u64 {
    number.wrapping_mul(MULTIPLIER) % slots as u64
}

/// The least number of slots in which so many pairs meet a load factor.
pub fn slots_for(pairs: usize, factor: usize) -> usize {
    pairs * 1000 / (factor + 1) + 1
}

/// The pairs in the order of iteration, with the number of slots, the load factor, and how many
/// numbers are due to have been read.
#[derive(Clone, Debug)]
pub struct List {
    pub pairs: Vec<(u64, u64)>,
    pub slots: usize,
    pub factor: usize,
    due: Cell<u64>,
}

impl List {
    /// A new one, with the slots of this capacity.
    pub fn new(capacity: usize) -> List {
        let slots = capacity.max(2).next_power_of_two();
        List { pairs: Vec::new(), slots, factor: 909, due: Cell::new(0) }
    }

    /// One that is collected of pairs.
    pub fn of(pairs: impl Iterator<Item = (Key, u64)>) -> List {
        let mut made = List::new(pairs.size_hint().0);
        made.extend(pairs);
        made
    }

    /// One that is collected of members of a set.
    pub fn of_set(keys: impl Iterator<Item = Key>) -> List {
        let mut made = List::new(keys.size_hint().0);
        made.add_all(keys);
        made
    }

    /// One that stands for a map or a set.
    pub fn like(it: &impl Shows) -> List {
        let (pairs, slots, factor) = it.shown();
        List { pairs, factor, ..List::new(slots) }
    }

    /// How many numbers the calls so far are due to read.
    pub fn due(&self) -> u64 {
        self.due.get()
    }

    /// The same list, before its next call.
    pub fn fresh(self) -> List {
        self.due.set(0);
        self
    }

    fn read(&self, count: u64) {
        self.due.set(self.due() + count);
    }

    /// What is compared with a map or a set.
    pub fn shown(&self) -> (Vec<(u64, u64)>, usize, usize) {
        (self.pairs.clone(), self.slots, self.factor)
    }

    fn slot(&self, number: u64) -> u64 {
        slot_among(number, self.slots)
    }

    /// How many pairs the slot of a number has.
    pub fn count_in_slot(&self, number: u64) -> usize {
        self.pairs.iter().filter(|it| self.slot(it.0) == self.slot(number)).count()
    }

    fn place(&self, key: Key) -> Option<usize> {
        self.pairs.iter().position(|it| it.0 == key.0)
    }

    /// A search: the sought number, and that of each key of its slot, up to the sought one.
    pub fn look(&self, key: Key) {
        let place = self.place(key);
        let up_to = place.map_or(self.pairs.len(), |it| it + 1);
        let slot = self.slot(key.0);
        let met = self.pairs[..up_to].iter().filter(|it| self.slot(it.0) == slot);
        self.read(1 + met.count() as u64);
    }

    /// The value of a key, by a search.
    pub fn find(&self, key: Key) -> Option<u64> {
        self.look(key);
        self.place(key).map(|place| self.pairs[place].1)
    }

    pub fn find_mut(&mut self, key: Key) -> Option<&mut u64> {
        self.look(key);
        self.place(key).map(|place| &mut self.pairs[place].1)
    }

    /// The key, if a search doesn't find it.
    pub fn absent(&self, key: Key) -> Option<Key> {
        self.look(key);
        self.place(key).is_none().then_some(key)
    }

    /// The value of a present key, by no search.
    fn at(&mut self, key: Key) -> &mut u64 {
        let place = self.place(key).expect("the key is present");
        &mut self.pairs[place].1
    }

    /// Removes a key. In its place comes the last pair of its slot.
    pub fn remove(&mut self, key: Key) -> Option<u64> {
        self.look(key);
        let place = self.place(key)?;
        Some(self.remove_at(place))
    }

    fn remove_at(&mut self, place: usize) -> u64 {
        let (number, value) = self.pairs[place];
        let slot = self.slot(number);
        let last = self.pairs.iter().rposition(|it| self.slot(it.0) == slot).unwrap();
        self.pairs[place] = self.pairs[last];
        self.pairs.remove(last);
        value
    }

    /// Stores a key if it is absent, and returns whether it was.
    pub fn add(&mut self, key: Key, value: u64) -> bool {
        let is_new = self.place(key).is_none();
        if is_new {
            self.store(key, value);
        } else {
            self.look(key);
        }
        is_new
    }

    /// The same by an entry, which reads the number of an absent key again to insert it. Returns the
    /// value that the key then has.
    pub fn or(&mut self, key: Key, value: u64) -> &mut u64 {
        if self.add(key, value) {
            self.read(1);
        }
        self.at(key)
    }

    /// Gives a key this value, in the place of a present one's.
    pub fn put(&mut self, key: Key, value: u64) -> u64 {
        *self.or(key, value) = value;
        value
    }

    /// Stores an absent key, and returns its value.
    pub fn fill(&mut self, key: Key, value: u64) -> Option<&mut u64> {
        let is_new = self.place(key).is_none();
        let stored = self.or(key, value);
        is_new.then_some(stored)
    }

    /// Stores a key as the last one of its slot. A present one is removed first.
    pub fn store(&mut self, key: Key, value: u64) -> Option<u64> {
        self.look(key);
        let old = self.place(key).map(|place| self.remove_at(place));
        let slots = if old.is_some() { self.slots } else { self.due_slots() };
        if slots > self.slots {
            self.store_and_grow(key, value, slots);
        } else {
            self.pairs.push((key.0, value));
        }
        self.sort();
        old
    }

    /// Stores a value under a present key again, changed, as the last pair of its slot.
    pub fn hand_back(&mut self, key: Key, change: fn(u64) -> u64) -> Option<u64> {
        match self.place(key) {
            Some(place) => {
                self.store(key, change(self.pairs[place].1));
                self.read(1);
            }
            None => self.look(key),
        }
        None
    }

    /// Makes the slots as few as the load factor and this capacity allow, by `insert` of each pair
    /// into new ones.
    pub fn shrink_to(&mut self, capacity: usize, insert: fn(&mut List, Key, u64)) {
        let slots = slots_for(self.pairs.len(), self.factor).max(capacity).max(2);
        if slots <= self.slots / 2 {
            let small = List { factor: self.factor, ..List::new(slots) };
            let pairs = std::mem::replace(self, small).pairs;
            pairs.into_iter().for_each(|(number, value)| insert(self, Key(number), value));
        }
    }

    /// Stores each pair in turn.
    pub fn extend(&mut self, pairs: impl Iterator<Item = (Key, u64)>) {
        pairs.for_each(|(key, value)| _ = self.store(key, value));
    }

    /// The same of members of a set.
    pub fn add_all(&mut self, keys: impl Iterator<Item = Key>) {
        keys.for_each(|key| _ = self.add(key, 0));
    }

    /// Becomes as another one. With as many slots it keeps them, and inserts the pairs of the
    /// other.
    pub fn copy(&mut self, other: List, insert: fn(&mut List, Key, u64)) {
        if self.slots != other.slots {
            *self = other;
            return;
        }
        self.read(other.due());
        self.pairs.clear();
        self.meet(other.factor);
        other.pairs.iter().for_each(|it| insert(self, Key(it.0), it.1));
    }

    /// Takes the first so many pairs out.
    pub fn drain(&mut self, count: usize) -> Vec<(u64, u64)> {
        self.pairs.drain(..count.min(self.pairs.len())).collect()
    }

    /// Takes the first so many pairs out that are picked.
    pub fn extract(&mut self, count: usize, pick: fn(u64, &mut u64) -> bool) -> Vec<(u64, u64)> {
        let mut taken = Vec::new();
        self.pairs.retain_mut(|it| {
            let goes = taken.len() < count && pick(it.0, &mut it.1);
            taken.extend(goes.then_some(*it));
            !goes
        });
        taken
    }

    /// Takes all pairs, and leaves a new map.
    pub fn taken(&mut self) -> Vec<(u64, u64)> {
        std::mem::replace(self, List::new(4)).pairs
    }

    pub fn each(&mut self, change: fn(u64, &mut u64)) {
        self.pairs.iter_mut().for_each(|it| change(it.0, &mut it.1));
    }

    pub fn keys(&self) -> Vec<u64> {
        self.pairs.iter().map(|it| it.0).collect()
    }

    pub fn values(&self) -> Vec<u64> {
        self.pairs.iter().map(|it| it.1).collect()
    }

    /// How many slots have a pair.
    pub fn load(&self) -> usize {
        self.held().len()
    }

    /// How many slots have each number of pairs above 1.
    pub fn collisions(&self) -> Vec<(u64, u64)> {
        let mut counts = BTreeMap::new();
        self.held().values().for_each(|it| *counts.entry(it.len() as u64).or_default() += 1);
        counts.into_iter().filter(|it| it.0 > 1).collect()
    }
}
