//! Growth of a plain list, and what it reads. This is the way of the code, which no contract says.
use super::{List, slot_among};
use crate::told::Key;
use std::collections::BTreeMap;

impl List {
    /// The slots that are due once there is one more pair. Load is checked at 4 to 7 pairs, 12 to
    /// 15 and so on.
    pub(super) fn due_slots(&self) -> usize {
        let len = self.pairs.len() + 1;
        if len % 8 < 4 { self.slots } else { self.least(len, self.factor) }
    }

    /// Puts the pairs in the order of their slots. Those of a slot keep their order.
    pub(super) fn sort(&mut self) {
        let slots = self.slots;
        self.pairs.sort_by_key(|it| slot_among(it.0, slots));
    }

    /// Growth with a new pair: for each pair of its old slot, up to one that comes to its new slot. The new pair is placed behind all others.
    pub(super) fn store_and_grow(&mut self, key: Key, value: u64, slots: usize) {
        let (old, new) = (self.slot(key.0), slot_among(key.0, slots));
        let mut beside = self.pairs.iter().map(|it| it.0).filter(|it| self.slot(*it) == old);
        let count = beside.clone().count();
        let met = beside.position(|it| slot_among(it, slots) == new);
        self.read(met.map_or(count, |it| it + 1) as u64);
        self.grow(slots);
        self.pairs.push((key.0, value));
    }

    /// The numbers of each slot.
    pub(super) fn held(&self) -> BTreeMap<u64, Vec<u64>> {
        let mut held: BTreeMap<u64, Vec<u64>> = BTreeMap::new();
        for it in &self.pairs {
            held.entry(self.slot(it.0)).or_default().push(it.0);
        }
        held
    }

    /// The least number of slots, among these and their doublings, in which so many pairs meet this
    /// load factor.
    fn least(&self, len: usize, factor: usize) -> usize {
        let mut slots = self.slots;
        while len * 1000 / slots > factor {
            slots *= 2;
        }
        slots
    }

    /// Growth that meets this load factor.
    pub fn meet(&mut self, factor: usize) {
        self.factor = factor;
        self.grow(self.least(self.pairs.len(), factor));
    }

    /// Room for so many more keys, if each slot held one.
    pub fn reserve(&mut self, more: usize) {
        self.grow((self.pairs.len() + more).next_power_of_two());
    }

    /// Room for so many more keys at the load factor.
    pub fn reserve_pairs(&mut self, more: usize) {
        self.grow(self.least(self.pairs.len() + more, self.factor));
    }

    /// Growth to so many slots, if these are more: for each pair, for its slot.
    fn grow(&mut self, slots: usize) {
        if slots > self.slots {
            self.read(self.pairs.len() as u64);
            self.slots = slots;
            self.sort();
        }
    }
}
