//! Counts the numbers that it reads, and prints each with its count, in the order of iteration. It
//! stops at the first word that isn't a number.
//!
//! ```sh
//! echo 7 21 7 3 21 7 | cargo run --offline --quiet --example count
//! ```
use intmap_proved::IntMap;
use std::io::{Result, read_to_string, stdin};

fn main() -> Result<()> {
    let text = read_to_string(stdin())?;
    let mut counts: IntMap<u64, u32> = IntMap::new();
    for number in text.split_whitespace().map_while(|word| word.parse().ok()) {
        *counts.entry(number).or_insert(0) += 1;
    }
    for (number, count) in &counts {
        println!("{number}: {count}");
    }
    println!("{} numbers in {} slots", counts.len(), counts.capacity());
    Ok(())
}
