//! Random calls on two maps side by side: that of this repository's crate for Rust, and that of
//! Rust's crate `intmap`. Both have to return the same.
//!
//! `tools/erased --original FOLDER` builds and runs it. Arguments are the number of calls, and the
//! seed of the first round if it isn't 1. After each call the two are compared: what the call
//! returned, the length and the capacity. Every 100 calls and at the end of a round all that a map
//! tells of itself is compared. The last line says how many calls were made, and how many differ.
mod given;
mod original;
mod proved;
mod random;
mod value;

use given::{Given, Kind, Round};
use std::env::args;
use std::process::ExitCode;
use value::Value;

const CALLS: u64 = 5_000_000;
const CALLS_OF_A_ROUND: u64 = 10_000;
const COMPARED_EVERY: u64 = 100;
/// So many differences are printed. A round ends at its first one.
const SHOWN: u64 = 10;

/// A call whose two answers differ.
struct Difference {
    call: String,
    proved: Vec<u64>,
    original: Vec<u64>,
}

impl Difference {
    /// Prints what the answers have from their first difference on.
    fn show(&self, seed: u64, number: u64) {
        let pairs = self.proved.iter().zip(&self.original);
        let same = pairs.take_while(|(proved, original)| proved == original).count();
        let rest = |answer: &[u64]| format!("{:?}", &answer[same..answer.len().min(same + 8)]);
        println!("seed {seed}, call {number}: {}", self.call);
        println!("    equal: {same} numbers of the answers");
        println!("    this crate: {}", rest(&self.proved));
        println!("    intmap: {}", rest(&self.original));
    }
}

/// Makes the calls of a round on two maps, up to the first one that differs. Returns how many it
/// made, and the two answers that differ.
fn run<V: Value>(round: &mut Round, calls: u64) -> (u64, Option<Difference>) {
    round.limit(V::KEYS);
    let (mut one, mut other) = (proved::IntMap::<V>::new(), original::IntMap::<V>::new());
    for number in 1..=calls {
        round.look(one.len(), one.capacity(), one.get_load_factor());
        let given = Given::new(round);
        let mut proved = proved::calls::made(&mut one, &given);
        let mut original = original::calls::made(&mut other, &given);
        if number.is_multiple_of(COMPARED_EVERY) || number == calls {
            proved.extend(proved::calls::whole(&one));
            original.extend(original::calls::whole(&other));
        }
        if proved != original {
            return (number, Some(Difference { call: given.text(), proved, original }));
        }
    }
    (calls, None)
}

/// Makes the calls of the round that a seed stands for. The rounds go through the values, and with
/// them through the kinds of keys.
fn run_of(seed: u64, calls: u64) -> (u64, Option<Difference>) {
    let round = &mut Round::new(seed, Kind::ALL[(seed / 5) as usize % Kind::ALL.len()]);
    match seed % 5 {
        0 => run::<u64>(round, calls),
        1 => run::<String>(round, calls),
        2 => run::<Box<u64>>(round, calls),
        3 => run::<()>(round, calls),
        _ => run::<[u8; 256]>(round, calls),
    }
}

fn main() -> ExitCode {
    let mut numbers = args().skip(1).map(|it| it.parse().expect("a number"));
    let calls: u64 = numbers.next().unwrap_or(CALLS);
    let mut seed: u64 = numbers.next().unwrap_or(1);
    let (mut made, mut differ) = (0, 0);
    while made < calls {
        let (number, difference) = run_of(seed, CALLS_OF_A_ROUND.min(calls - made));
        if let Some(difference) = difference {
            differ += 1;
            if differ <= SHOWN {
                difference.show(seed, number);
            }
        }
        made += number;
        seed += 1;
    }
    println!("{made} calls, {differ} differ");
    ExitCode::from(u8::from(differ > 0))
}
