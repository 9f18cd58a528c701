//! Nanoseconds per key of this map, of std's `HashMap`, and of that with a hasher that multiplies,
//! with keys and values of 64 bits.
//!
//! ```sh
//! cargo run --offline --release --example times
//! cargo run --offline --release --example times -- 20000 random 90%
//! ```
//!
//! The words are numbers of keys and kinds of keys, as `key_at` has them. The maps take turns. Each
//! figure is the least of many rounds, so that other programs disturb it little; `longest` is the
//! longest single insertion, in nanoseconds. Maps start empty and grow, except for
//! `insert_with_room`. Where a name doesn't say `shuffled` or `absent`, keys come in the order of
//! their insertion. Absent keys are shuffled too.
use std::collections::HashMap;
use std::hash::{BuildHasherDefault, Hasher};
use std::time::Instant;

/// About how many keys are inserted for a figure, in several maps.
const KEYS: u64 = 8_000_000;

/// A hasher that multiplies. std chooses a place by a hash's low bits, on which only a key's low
/// bits would bear, so the high ones go there too.
#[derive(Default)]
pub struct Multiplying(u64);

impl Hasher for Multiplying {
    fn write(&mut self, _bytes: &[u8]) {
        unreachable!("all keys are u64");
    }

    fn write_u64(&mut self, key: u64) {
        self.0 = key.wrapping_mul(0x9e37_79b9_7f4a_7c15);
    }

    fn finish(&self) -> u64 {
        self.0 ^ self.0 >> 32
    }
}

type Multiplied = HashMap<u64, u64, BuildHasherDefault<Multiplying>>;

/// A number whose bits all depend on all bits of this one.
fn mixed(number: u64) -> u64 {
    let number = (number ^ (number >> 30)).wrapping_mul(13787848793156543929);
    let number = (number ^ (number >> 27)).wrapping_mul(10723151780598845931);
    number ^ (number >> 31)
}

/// The key of a kind at this place, in a map of so many keys. Absent keys have the places behind.
fn key_at(kind: &str, place: u64, count: u64) -> u64 {
    match kind {
        // all over the range
        "random" => mixed(place.wrapping_mul(11400714819323198485)),
        // ids in order, or shuffled by `Work::new`
        "dense" | "shuffled" => place,
        // ids in order, without one of each ten
        "90%" => {
            let (ten, at) = (place / 9, place % 9);
            ten * 10 + at + u64::from(at >= mixed(ten) % 10)
        }
        // ids in order, one of each two
        "50%" => place * 2 + mixed(place) % 2,
        "even" => place * 2,
        // ids in order, and a last key that shares the slot of id 0
        "stray" if place + 1 == count => 1 << 40,
        "stray" => place,
        // runs of 16, each from a random multiple of 16
        "runs" => (mixed(place / 16) << 4) | (place % 16),
        // all in one slot, of up to 2^20
        "one-slot" => place << 20,
        _ => panic!("no kind of keys: {kind}"),
    }
}

/// The same keys in another order.
fn shuffled(keys: &[u64]) -> Vec<u64> {
    let mut sorted: Vec<_> = (1..).map(mixed).zip(keys.iter().copied()).collect();
    sorted.sort_unstable();
    sorted.into_iter().map(|(_, key)| key).collect()
}

/// The keys that maps are filled with, the same shuffled, and as many absent ones, shuffled too.
pub struct Work {
    pub keys: Vec<u64>,
    pub shuffled: Vec<u64>,
    pub absent: Vec<u64>,
}

impl Work {
    pub fn new(kind: &str, count: u64) -> Work {
        let Work { mut keys, .. } = Work::to_fill(kind, count);
        let mixed = shuffled(&keys);
        if kind == "shuffled" {
            keys = shuffled(&mixed);
        }
        let behind: Vec<u64> = (count..2 * count).map(|at| key_at(kind, at, count)).collect();
        Work { keys, shuffled: mixed, absent: shuffled(&behind) }
    }

    /// Only keys to fill a map with, since the bytes of more would hide the most that a map takes.
    pub fn to_fill(kind: &str, count: u64) -> Work {
        let keys = (0..count).map(|at| key_at(kind, at, count)).collect();
        Work { keys, shuffled: Vec::new(), absent: Vec::new() }
    }
}

/// The phases in turn: the name, nanoseconds, and the sum of what the calls returned.
#[derive(Default)]
pub struct Times(pub Vec<(&'static str, u128, u64)>);

impl Times {
    /// Times a phase that makes a sum.
    #[inline(never)]
    pub fn sum(&mut self, name: &'static str, phase: impl FnOnce() -> u64) {
        let start = Instant::now();
        let sum = phase();
        self.0.push((name, start.elapsed().as_nanos(), sum));
    }

    /// Times a phase that makes a map or nothing, and returns what it made.
    #[inline(never)]
    pub fn made<M>(&mut self, name: &'static str, phase: impl FnOnce() -> M) -> M {
        let start = Instant::now();
        let map = phase();
        self.0.push((name, start.elapsed().as_nanos(), 0));
        map
    }

    /// Times each of some calls, and keeps the longest time.
    #[inline(never)]
    pub fn longest(&mut self, keys: &[u64], mut call: impl FnMut(&[u64]) -> u64) {
        let times = keys.chunks(1).map(|key| {
            let start = Instant::now();
            call(key);
            start.elapsed().as_nanos()
        });
        self.0.push(("longest", times.max().unwrap_or(0), 0));
    }
}

/// The sum of what is made of each item.
macro_rules! sum {
    ($items:expr, $item:pat => $made:expr) => {{
        let mut sum = 0u64;
        for $item in $items {
            sum = sum.wrapping_add($made);
        }
        sum
    }};
}

/// A function of this name that goes through the phases with maps of this type, or only fills one:
/// how one with room is made, how an entry gives its value, and whether look-ups take a reference.
macro_rules! goes_through {
    ($name:ident: $map:ty, $room:ident => $sized:expr, $entry:ident => $value:expr, [$($by:tt)?]) => {
        pub fn $name(work: &Work, only_fills: bool) -> Times {
            /// Binds each key to one more. Sums the values before.
            #[inline(never)]
            fn put(map: &mut $map, keys: &[u64]) -> u64 {
                sum!(keys, key => map.insert(*key, key.wrapping_add(1)).unwrap_or(0))
            }
            #[inline(never)]
            fn find(map: &$map, keys: &[u64]) -> u64 {
                sum!(keys, key => map.get($($by)? *key).copied().unwrap_or(0))
            }
            #[inline(never)]
            fn take(map: &mut $map, keys: &[u64]) -> u64 {
                sum!(keys, key => map.remove($($by)? *key).unwrap_or(0))
            }
            #[inline(never)]
            fn add(map: &mut $map, keys: &[u64]) {
                for key in keys {
                    let $entry = map.entry(*key);
                    let value: &mut u64 = $value;
                    *value = value.wrapping_add(1);
                }
            }
            let (keys, $room) = (work.keys.as_slice(), work.keys.len());
            let (mut map, mut times) = (<$map>::default(), Times::default());
            if only_fills {
                put(&mut map, keys);
                std::mem::forget(map);
                return times;
            }
            times.sum("insert", || put(&mut map, keys));
            times.sum("get", || find(&map, keys));
            times.sum("get_shuffled", || find(&map, &work.shuffled));
            times.sum("get_absent", || find(&map, &work.absent));
            times.sum("iterate", || sum!(map.iter(), (key, value) => key ^ value));
            times.made("add", || add(&mut map, keys));
            times.sum("insert_present", || put(&mut map, keys));
            times.sum("remove", || take(&mut map, keys));
            put(&mut map, keys);
            times.sum("remove_shuffled", || take(&mut map, &work.shuffled));
            let mut other = <$map>::default();
            times.longest(keys, |key| put(&mut other, key));
            times.made("drop", || drop(other));
            put(&mut map, keys);

            let mut twin = times.made("clone", || map.clone());
            times.made("values_mut", || twin.values_mut().for_each(|value| *value ^= 1));
            times.made("retain_half", || twin.retain(|_, value| *value % 2 == 1));
            twin.clear();
            put(&mut twin, keys);
            times.made("clear", || twin.clear());
            put(&mut twin, keys);
            times.sum("drain", || sum!(twin.drain(), (key, value) => key ^ value));
            put(&mut twin, keys);
            times.sum("into_iter", || sum!(twin, (key, value) => key ^ value));

            times.made("insert_with_room", || {
                let mut sized: $map = $sized;
                put(&mut sized, keys);
                sized
            });
            times
        }
    };
}

goes_through!(
    proved: intmap_proved::IntMap<u64, u64>,
    room => intmap_proved::IntMap::with_room_for(room),
    entry => entry.or_insert(0),
    []
);
goes_through!(
    std: HashMap<u64, u64>,
    room => HashMap::with_capacity(room),
    entry => entry.or_insert(0),
    [&]
);
goes_through!(
    multiplied: Multiplied,
    room => HashMap::with_capacity_and_hasher(room, Default::default()),
    entry => entry.or_insert(0),
    [&]
);

/// Prints the figures of one kind of keys.
fn compare(size: u64, kind: &str) {
    let (work, maps) = (Work::new(kind, size), [proved, std, multiplied]);
    let mut least = maps.map(|go| go(&work, false));
    for _ in 1..(KEYS / size).max(4) {
        for (Times(least), go) in least.iter_mut().zip(maps) {
            for (least, (_, nanos, _)) in least.iter_mut().zip(go(&work, false).0) {
                least.1 = least.1.min(nanos);
            }
        }
    }
    for (phase, (name, _, sum)) in least[0].0.iter().enumerate() {
        let keys = if *name == "longest" { 1 } else { size };
        let [this, std, multiplied] = least.each_ref().map(|Times(of_map)| {
            assert_eq!(of_map[phase].2, *sum, "{kind}, {name}: maps return the same");
            of_map[phase].1 as f64 / keys as f64
        });
        println!("{size:>9}  {kind:<8}  {name:<16} {this:>8.1} {std:>8.1} {multiplied:>11.1}");
    }
}

fn main() {
    let words: Vec<String> = std::env::args().skip(1).collect();
    let mut sizes: Vec<u64> = words.iter().filter_map(|it| it.parse().ok()).collect();
    let mut kinds: Vec<&str> = words.iter().map(String::as_str).collect();
    kinds.retain(|it| it.parse::<u64>().is_err());
    if sizes.is_empty() {
        sizes = vec![1_000, 20_000, 1_000_000];
    }
    if kinds.is_empty() {
        kinds = vec!["random", "dense", "90%"];
    }
    println!("     keys  kind      call                 this      std multiplying");
    for size in sizes {
        kinds.iter().for_each(|kind| compare(size, kind));
    }
}
