//! Times the calls of one of several maps of Rust from `u64` to `u64`, one phase after another. It
//! takes the arguments of tools/measure_driver/src/main.rt.txt, and prints the same lines and more.
//! The phases and the keys are those of rust/examples/times.rs, which tools/measure copies beside
//! this file.
use std::env;

// code that comes first, so that a build with this flag has all other code 16 bytes further on
#[cfg(shifted)]
std::arch::global_asm!(
    ".section .text.shift,\"axR\",@progbits",
    ".fill 16,1,0x90",
    ".text"
);

#[macro_use]
#[allow(dead_code)]
mod times;

use times::{Times, Work};

#[cfg(feature = "hashbrown")]
goes_through!(
    hashbrown: hashbrown::HashMap<u64, u64>,
    room => hashbrown::HashMap::with_capacity(room),
    entry => entry.or_insert(0),
    [&]
);
// it makes room for slots, of which it fills at most 909 of 1,000
#[cfg(feature = "intmap")]
goes_through!(
    original: intmap::IntMap<u64>,
    room => intmap::IntMap::with_capacity(room + room / 10 + 1),
    entry => match entry {
        intmap::Entry::Occupied(it) => it.into_mut(),
        intmap::Entry::Vacant(it) => it.insert(0),
    },
    []
);

fn main() {
    let words: Vec<String> = env::args().skip(1).collect();
    let [map, kind, count, times, rest @ ..] = words.as_slice() else {
        panic!("arguments: MAP KIND COUNT TIMES [fill]");
    };
    let go: fn(&Work, bool) -> Times = match map.as_str() {
        "std" => times::std,
        "multiplied" => times::multiplied,
        "proved" => times::proved,
        #[cfg(feature = "hashbrown")]
        "hashbrown" => hashbrown,
        #[cfg(feature = "intmap")]
        "original" => original,
        _ => panic!("no such map: {map}"),
    };
    let (count, rounds): (u64, u64) = (count.parse().unwrap(), times.parse().unwrap());
    let only_fills = !rest.is_empty();
    let make = if only_fills { Work::to_fill } else { Work::new };
    let work = make(kind, count);
    for _ in 0..rounds {
        for (name, nanos, sum) in go(&work, only_fills).0 {
            println!("{name} {nanos} {sum}");
        }
    }
}
