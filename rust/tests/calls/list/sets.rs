//! Calls on two lists that stand for sets. Which of them is searched is the way of the code.
use super::{List, slots_for};
use crate::told::Key;

impl List {
    /// The members that another list has, or lacks: each is looked up there.
    fn members(&self, other: &List, has: bool) -> Vec<u64> {
        let is_there = |it: &u64| other.find(Key(*it)).is_some();
        self.keys().into_iter().filter(|it| is_there(it) == has).collect()
    }

    pub fn difference(&self, other: &List) -> Vec<u64> {
        self.members(other, false)
    }

    /// Members of the one with fewer members are looked up in the other, or those of this one.
    pub fn intersection(&self, other: &List) -> Vec<u64> {
        let (few, many) = self.by_length(other);
        few.members(many, true)
    }

    /// Members of the one with fewer members are looked up in the other, or those of `other`.
    pub fn union(&self, other: &List) -> Vec<u64> {
        let (few, many) = other.by_length(self);
        [many.keys(), few.members(many, false)].concat()
    }

    pub fn symmetric_difference(&self, other: &List) -> Vec<u64> {
        [self.difference(other), other.difference(self)].concat()
    }

    fn by_length<'a>(&'a self, other: &'a List) -> (&'a List, &'a List) {
        if other.pairs.len() < self.pairs.len() { (other, self) } else { (self, other) }
    }

    /// Whether each member is there in another list, or none is. Looked up up to the first that
    /// decides.
    fn all_in(&self, other: &List, are_there: bool) -> bool {
        self.keys().into_iter().all(|it| other.find(Key(it)).is_some() == are_there)
    }

    pub fn is_subset(&self, other: &List) -> bool {
        self.all_in(other, true)
    }

    pub fn is_disjoint(&self, other: &List) -> bool {
        let (few, many) = self.by_length(other);
        few.all_in(many, false)
    }

    pub fn is_equal(&self, other: &List) -> bool {
        self.pairs.len() == other.pairs.len() && self.is_subset(other)
    }

    /// The set that is made of members, with room for so many from the start, in its order.
    pub fn made(&self, members: Vec<u64>, room: usize) -> Vec<u64> {
        let mut made = List::new(slots_for(room, 909));
        made.add_all(members.into_iter().map(Key));
        self.read(made.due());
        made.keys()
    }
}
