//! A key that counts how often its number is read, and what tests compare: what a map or a set
//! holds, and what calls return, as numbers.
use intmap_proved::{IntKey, IntMap, IntSet};
use std::cell::Cell;

thread_local! {
    pub static READS: Cell<u64> = const { Cell::new(0) };
    pub static EQUALS: Cell<u64> = const { Cell::new(0) };
}

/// A key that counts how often its number is read, and how often it is compared by `==`.
#[derive(Clone, Copy, Debug)]
pub struct Key(pub u64);

impl PartialEq for Key {
    fn eq(&self, other: &Key) -> bool {
        EQUALS.set(EQUALS.get() + 1);
        self.0 == other.0
    }
}

impl Eq for Key {}

impl IntKey for Key {
    fn number(&self) -> u64 {
        READS.set(READS.get() + 1);
        self.0
    }
}

pub type Map = IntMap<Key, u64>;
pub type Set = IntSet<Key>;

/// What is compared of a map or a set: its pairs in order, its capacity and its load factor.
pub trait Shows: Clone {
    fn shown(&self) -> (Vec<(u64, u64)>, usize, usize);
}

impl Shows for Map {
    fn shown(&self) -> (Vec<(u64, u64)>, usize, usize) {
        let pairs = self.iter().map(|(key, value)| (key.0, *value));
        (pairs.collect(), self.capacity(), self.load_factor_thousandths())
    }
}

impl Shows for Set {
    fn shown(&self) -> (Vec<(u64, u64)>, usize, usize) {
        let members = self.iter().map(|key| (key.0, 0));
        (members.collect(), self.capacity(), self.load_factor_thousandths())
    }
}

/// What a call returned, as numbers.
pub trait Tells {
    fn told(self) -> Vec<u64>;
}

macro_rules! tells {
    ($($of:ty: |$it:pat_param| $told:expr;)*) => { $(
        impl Tells for $of {
            fn told(self) -> Vec<u64> {
                let $it = self;
                $told.to_vec()
            }
        }
    )* };
}

tells! {
    u64: |it| [it];
    bool: |it| [u64::from(it)];
    usize: |it| [it as u64];
    f32: |it| [u64::from(it.to_bits())];
    f64: |it| [it.to_bits()];
    Key: |it| [it.0];
}

impl Tells for () {
    fn told(self) -> Vec<u64> {
        Vec::new()
    }
}

impl<T: Tells + Copy> Tells for &T {
    fn told(self) -> Vec<u64> {
        (*self).told()
    }
}

impl<T: Tells> Tells for Option<T> {
    fn told(self) -> Vec<u64> {
        self.map_or(vec![0], |it| [vec![1], it.told()].concat())
    }
}

impl<T: Tells, E: std::fmt::Debug> Tells for Result<T, E> {
    fn told(self) -> Vec<u64> {
        self.unwrap().told()
    }
}

impl<A: Tells, B: Tells> Tells for (A, B) {
    fn told(self) -> Vec<u64> {
        [self.0.told(), self.1.told()].concat()
    }
}

impl<T: Tells> Tells for Vec<T> {
    fn told(self) -> Vec<u64> {
        self.into_iter().flat_map(T::told).collect()
    }
}
