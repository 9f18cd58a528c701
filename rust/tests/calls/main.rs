//! What the calls of maps and sets return, and what they leave.
#![forbid(unsafe_code)]

mod against_std;
mod carried;
mod counts;
mod disjoint;
mod entries;
mod figures;
mod forms;
mod iterators;
mod keys;
mod lent;
mod list;
mod order;
#[path = "../shared/random.rs"]
mod random;
mod room;
mod rows;
mod sets;
mod table;
mod texts;
mod threads;
mod told;
mod values;
