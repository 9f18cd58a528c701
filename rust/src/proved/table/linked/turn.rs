//! Growth turns a chain round before its pairs move: the last one moves first, and each is put
//! before those that were behind it.

use crate::memory::prelude::*;
use crate::proved::table::linked::node::{NODE_LIMIT, NOWHERE};
use crate::proved::table::linked::pool::Pool;
use crate::memory::alloc::Allocator;

/// Turns the chain of a link round: the new link leads through the same pairs, the last one first.
/// Each node of the chain gets another link, once.
pub(in crate::proved::table) fn turn<P, A: Allocator>(pool: &mut Pool<P, A>, link: usize) -> usize {
    let mut turned = NOWHERE;
    let mut left = link;
    while left < NODE_LIMIT {
        let next = pool.link(left);
        pool.set_link(left, turned);
        turned = left;
        left = next;
    }
    turned
}
