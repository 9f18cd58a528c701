//! A map and a set for integer keys, whose core is machine-checked against its contract.
//!
//! If an allocation fails, a call such as [`try_insert`](IntMap::try_insert) gives your value back.
//! Iteration has the same order on every run. The crate is `no_std` with `alloc`, and has no
//! `unsafe` and no dependency. It is fast on ids that count up with hardly a gap.
//!
//! ```
//! use intmap_proved::IntMap;
//!
//! let mut map = IntMap::new();
//! assert_eq!(map.insert(21u64, "half the truth"), None);
//! assert_eq!(map.insert(42, "the truth"), None);
//! assert_eq!(map.get(42), Some(&"the truth"));
//! assert_eq!(map.remove(21), Some("half the truth"));
//! assert_eq!(map.len(), 1);
//! ```
//!
//! In the table, each figure is this map's time or bytes divided by the other map's. If no other
//! map is named, it is std's with a hasher that multiplies. Keys and values were `u64`. For the
//! times, maps had 1,000 and 20,000 pairs. A time is the least of several rounds in which the maps
//! took turns, on a virtual machine on 2026-12-01. Bytes were counted at the allocator, and are
//! those for most numbers of pairs: [Memory](IntMap#memory) has the exception.
//!
//! You want | Take
//! ---|---
//! many insertions of random keys, or little memory | std's or hashbrown's with a hasher that multiplies. With random keys an insertion here takes 2.3 to 2.5 times std's time, or 1.3 to 1.4 where room was made, a look-up of a present key 1.3 to 2.1 and of an absent one 2.4 to 2.9, a removal 0.8 to 1.0, a step of `iter` 2.2 to 2.3, and a map 1.6 to 1.9 times std's bytes
//! to clone, collect, drain or clear whole maps | the same. Here `clone` takes 3 to 17 times std's time, and `into_iter` and `drain` 3.5 to 6. `clear` goes through all pairs. `extend` reserves nothing ahead. A `drop` goes through the slots only if values have something to drop
//! ids with hardly a gap | this. A look-up of a present id takes 0.5 to 0.7 of std's time, a removal 0.3 to 0.5, an insertion 0.8 to 1.1, or 0.6 to 0.7 where room was made, and a map 1.4 times std's bytes. Of 20,000 ids, look-ups of absent ones in shuffled order take 1.5 to 2.0 times std's time
//! ids with more gaps, or inserted in another order | measure. Here an insertion takes 1.4 times std's time with half of the ids missing, 1.6 times in shuffled order, and 1.0 with even ids. A look-up takes 0.8, 0.7 and 1.6 times std's time
//! a program that goes on when memory fails | this: it returns the failure and the value, and the map is as it was. std's has `try_reserve` alone
//! the same order on every run and machine | this, or `indexmap` (in order of insertion), or `BTreeMap` (sorted)
//! look-ups, removals and growth that are proved | this
//! to go on with code for `intmap` 2.0.0 | this, by [one `use` line](original). The insertion of a new key takes 0.15 to 0.5 of its time, that of a present one 0.4 to 1.1, a removal 0.5 to 1.7, `clear` 2 to 5.2
//! 32-bit targets, a hasher of your own, keys that strangers choose | std's; [`int_key!`] says what a secret costs, and what it is worth
//!
//! The traits of serde are in the crate `intmap_proved_serde`.
//!
//! # Beside std's maps
//!
//! The calls are those of std's `HashMap` and `HashSet`. Before you take one for the other:
//!
//! - Keys are passed by value. Closures get them by value too, except `or_insert_with_key`'s.
//! - `map.drain();` empties nothing: a step removes a pair, and what it didn't return stays. After a
//!   loop over `drain` that ends early, `clear` empties the map.
//! - `capacity`, `with_capacity(128)` and `reserve(128)` count slots: 128 pairs may double them.
//!   [`with_room_for`](IntMap::with_room_for) and [`reserve_pairs`](IntMap::reserve_pairs) count
//!   pairs, [`reserve_members`](IntSet::reserve_members) members. Keys that share a slot still
//!   allocate. After [`reserve_insertions(128)`](IntMap::reserve_insertions), insertions of 128 new
//!   keys of any kind allocate nothing.
//! - [`iter_mut`](IntMap::iter_mut) and [`values_mut`](IntMap::values_mut), or one of their steps, may
//!   move pairs and cost *O*(*n* + *c*) if keys share a slot.
//!   [`for_each_mut`](IntMap::for_each_mut) moves none.
//! - `new`, `default` and `mem::take` allocate, so no map is a constant. A map that begins with
//!   room writes all of it at once, 24 bytes per slot for keys and values of 64 bits.
//! - `insert` of a present key moves its pair to the end of its slot, so later in the order.
//!   [`first_key_value`](IntMap::first_key_value) returns the first pair in that order.
//! - A map's `insert`, `extend` and `collect` store the new key of a present one, where std keeps
//!   the old one. A map's `remove_entry` and a set's `take` return the key that was passed, std's
//!   the stored one. Keys that keep to the rules of [`IntKey`] don't show it.
//! - `retain` can't change values: [`retain_mut`](IntMap::retain_mut) can.
//! - `try_insert` fails for want of memory, not for a present key. `try_reserve` returns a
//!   [`Cause`], not a `TryReserveError`.
//! - [`and_modify`](Entry::and_modify) is `#[must_use]`: with no insertion behind it, `get_mut` does
//!   the same.
//! - The `Debug` text of an iterator that can't be cloned has no items. Most say how many are left.
//! - There is no hasher, and no `get_disjoint_unchecked_mut`. A set has no `load_rate`,
//!   `collisions` or `assert_count`. A struct with a field `IntMap<K, V>` needs no bound, but needs
//!   `K: IntKey` to derive `Clone`, `Debug` or `PartialEq`.
//!
//! # What is proved
//!
//! The core of [`IntMap`] and [`IntSet`] is written in Rattle, Rust with contracts that a prover
//! checks. A tool erases the contracts, and what is left is the private module `proved` of this
//! crate. Each call there is proved against its contract: what it returns, which pairs the map then
//! has and in which order, its capacity, when the call fails, and that a failed call leaves the map
//! as it was. The README names what a reader trusts beside the proof, and has a table of the calls of
//! this crate that are one proved call, and of those that have code by hand.
//!
//! A call that makes a proved call has a line such as "Proved of `IntMap::get`: `value`". The line
//! names the proved call and the clauses of its contract, which stand in the crates `intmap` and
//! `intmap_set` of the repository that this copy came from. Nobody needs these names to use the
//! crate: the text above the line says in words what the clauses say of the answer, of what the
//! call leaves, and of failures. "Proved in part" marks code by hand over the proved calls that the
//! line names. Except for those of the next paragraph, a method of a map, a set or an entry without
//! such a line only makes the call that its text links. Implementations of traits have no such
//! line: see the README's table. What holds of every map is proved of each call too: no key is
//! there twice, the pairs are in the order of their slots, the capacity is a power of two from 2 to
//! 2^63, and the load factor is met at the last length at which insertions check it.
//!
//! Not proved, but tested: [`IntMap::retain_mut`], which removes pairs by code of its own; mutable
//! references to several values, which [`IntMap::iter_mut`], [`IntMap::values_mut`], `&mut map` and
//! [`IntMap::get_disjoint_mut`] hand out; what makes a map whole after a panic; and the other code
//! by hand. By lines of code, more than a third of the crate is by hand.
//!
//! # Failed allocations
//!
//! A call that may allocate has two forms. [`try_insert`](IntMap::try_insert) returns the failure
//! and hands the value back, and the map is as it was, but may keep memory that it was granted
//! before. [`insert`](IntMap::insert) does what std's collections do: if an allocation fails, it
//! calls `handle_alloc_error`, whose message names the size of one word, whatever was requested.
//! That ends the process, or panics in a program without std: where the text of another call says
//! that it ends the process, the same holds. If the map would need more than 2^63 slots, `insert`
//! panics. The operators of sets, such as `|`, and `clone_from` have no `try_` form: take
//! [`IntSet::try_from_iter`] of the members, and [`try_clone`](IntMap::try_clone). All other calls
//! allocate nothing: lookups, removals, `retain`, `clear`, and all iterators.
//!
//! ```
//! use intmap_proved::{Cause, IntMap, Refused};
//!
//! let mut map = IntMap::new();
//! match map.try_insert(21u64, "a value") {
//!     Ok(old) => assert_eq!(old, None),
//!     Err(Refused { value, cause }) => eprintln!("no room for {value}: {cause}"),
//! }
//!
//! // with `?`, the cause alone
//! fn count(map: &mut IntMap<u64, u32>, key: u64) -> Result<(), Cause> {
//!     let count = map.entry(key).try_or_insert(0)?;
//!     *count = count.saturating_add(1);
//!     Ok(())
//! }
//! # count(&mut IntMap::new(), 21).unwrap();
//! ```
//!
//! By `?` a [`Refused`] becomes a `Box<dyn Error>` only if the value is `Debug` and borrows nothing.
//! For other values write `.map_err(Cause::from)?`. A type of errors of yours needs no such call if it
//! has `From<Cause>`, and `From<Refused<V>>` for every `V`, by the field `cause`. The `source` of a
//! [`Refused`] is `None`: its text names the cause.
//!
//! # Panics
//!
//! A closure, a `drop`, a `clone`, an iterator or a key's `number` may panic in the middle of a
//! call. The map is then whole: each of its pairs is found, walked and counted once, and no value
//! is dropped twice. What the call did before stays done, and the pair that it had in hand, such as
//! one that it inserts or removes, is dropped. If a key's `number` panics as the map grows, all pairs
//! that were in the map stay in it and go back to their old slots, which takes no memory: the
//! capacity is the old one too, but pairs of one slot may have another order.
//! [`shrink_to`](IntMap::shrink_to) and `clone_from` say what they lose. [`IntKey`] says what a type
//! of keys owes.
//!
//! # Threads
//!
//! A map is `Send` and `Sync` if its keys and values are.
//!
//! ```
//! use intmap_proved::IntMap;
//! use std::thread;
//!
//! let map = IntMap::from([(1u64, 'a'), (2, 'b')]);
//! thread::scope(|scope| {
//!     scope.spawn(|| assert_eq!(map.get(1), Some(&'a')));
//!     scope.spawn(|| assert_eq!(map.get(2), Some(&'b')));
//! });
//! ```
#![no_std]
#![forbid(unsafe_code)]
#![warn(missing_docs)]

#[cfg(not(target_pointer_width = "64"))]
compile_error!("intmap_proved is for targets that are 64 bits wide");

extern crate alloc;

mod declared;
mod guard;
pub mod iter;
mod key;
mod map;
// behind `map`, so that `entry` stands behind the other calls of a map
#[rustfmt::skip]
mod entry;
mod memory;
pub mod original;
#[rustfmt::skip]
mod proved;
mod refusal;
mod room;
pub mod set;
mod traits;

pub use declared::scramble;
pub use entry::{Entry, OccupiedEntry, VacantEntry};
pub use key::{IntKey, check_keys};
pub use map::IntMap;
pub use refusal::{Cause, Refused, RefusedPair};
#[doc(inline)]
pub use set::IntSet;

/// The examples of the README, as tests.
#[cfg(doctest)]
#[doc = include_str!("../README.md")]
struct Readme;
