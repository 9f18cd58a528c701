//! One node, which is a place for a pair, and links. A slot is a node, and so is what a pool has.

use crate::memory::prelude::*;
use crate::proved::table::kept::Kept;
use crate::proved::table::key::IntKey;
use crate::proved::table::table::closure_calls::{picks_pair, write_pair};
use crate::proved::table::table::stored::Stored;
use core::mem;

/// The greatest number of nodes: 65535 * 2^32. A link that is no smaller leads nowhere. Its greater
/// part alone shows this, since it is 65535.
pub(in crate::proved::table) const NODE_LIMIT: usize = 281470681743360;

/// The link of a pair that is the last one of its slot, and of the last free node: 2^48 - 1.
pub(in crate::proved::table) const NOWHERE: usize = 281474976710655;

/// The number of links that have the same greater part: 2^32.
const LOW_LINKS: usize = 4294967296;

/// The link that two parts make.
#[inline(always)]
pub(in crate::proved::table) fn link_of(high: u16, low: u32) -> usize {
    high as usize * LOW_LINKS + low as usize
}

/// The greater part of a link.
#[inline(always)]
pub(in crate::proved::table) fn high_part(link: usize) -> u16 {
    (link / LOW_LINKS) as u16
}

/// The lesser part of a link.
#[inline(always)]
pub(in crate::proved::table) fn low_part(link: usize) -> u32 {
    (link % LOW_LINKS) as u32
}

/// What is in a node. A link is parted in two, so that a node with a pair of two words takes three.
enum NodeForm<P> {
    Free(u16, u32),
    Held(u16, u32, P),
}

/// A place for a pair. A slot is one, with the first of its pairs, and a pool has more, with those
/// behind the first ones. One that holds a pair has the link to the node behind it. In a pool one
/// that holds none has the link to the next such node; in a slot nobody reads that link.
pub(in crate::proved::table) struct Node<P> {
    form: NodeForm<P>,
}

impl<P> Node<P> {
    /// A node without a pair, as a slot is made.
    #[inline(always)]
    pub(in crate::proved::table) fn empty() -> Node<P> {
        Node {
            form: NodeForm::Free(0, 0),
        }
    }

    /// A node with a pair, and the link to the node behind it.
    #[inline(always)]
    pub(in crate::proved::table) fn held(link: usize, pair: P) -> Node<P> {
        Node {
            form: NodeForm::Held(high_part(link), low_part(link), pair),
        }
    }

    /// Whether it holds no pair.
    #[inline(always)]
    pub(in crate::proved::table) fn is_empty(&self) -> bool {
        match &self.form {
            NodeForm::Free(_, _) => true,
            NodeForm::Held(_, _, _) => false,
        }
    }

    /// The link and the pair, if the node holds one.
    #[inline(always)]
    pub(in crate::proved::table) fn get(&self) -> Option<(usize, &P)> {
        match &self.form {
            NodeForm::Held(high, low, pair) => Some((link_of(*high, *low), pair)),
            NodeForm::Free(_, _) => None,
        }
    }

    /// The link to the next free node, if the node holds no pair.
    #[inline(always)]
    pub(in crate::proved::table) fn next_free(&self) -> Option<usize> {
        match &self.form {
            NodeForm::Free(high, low) => Some(link_of(*high, *low)),
            NodeForm::Held(_, _, _) => None,
        }
    }

    /// Gives a node that holds a pair another link.
    #[inline(always)]
    pub(in crate::proved::table) fn set_link(&mut self, link: usize) {
        match &mut self.form {
            NodeForm::Held(high, low, _) => {
                *high = high_part(link);
                *low = low_part(link);
            }
            NodeForm::Free(_, _) => unreachable!(),
        }
    }

    /// Puts a pair into the place of another, and returns that one.
    #[inline(always)]
    pub(in crate::proved::table) fn replace(&mut self, pair: P) -> P {
        match &mut self.form {
            NodeForm::Held(_, _, held) => mem::replace(held, pair),
            NodeForm::Free(_, _) => unreachable!(),
        }
    }

    /// Puts a pair with a link into a node that is free.
    #[inline(always)]
    pub(in crate::proved::table) fn fill(&mut self, link: usize, pair: P) {
        let form = NodeForm::Held(high_part(link), low_part(link), pair);
        match mem::replace(&mut self.form, form) {
            NodeForm::Free(_, _) => {}
            NodeForm::Held(_, _, _) => unreachable!(),
        }
    }

    /// Removes the pair of a node, which then is free and has the link to the next free node.
    #[inline(always)]
    pub(in crate::proved::table) fn release(&mut self, free: usize) -> P {
        let form = NodeForm::Free(high_part(free), low_part(free));
        match mem::replace(&mut self.form, form) {
            NodeForm::Held(_, _, pair) => pair,
            NodeForm::Free(_, _) => unreachable!(),
        }
    }

    /// Removes the pair of a slot and the link with it, and returns both.
    #[inline(always)]
    pub(in crate::proved::table) fn take(&mut self) -> (usize, P) {
        match mem::replace(&mut self.form, NodeForm::Free(0, 0)) {
            NodeForm::Held(high, low, pair) => (link_of(high, low), pair),
            NodeForm::Free(_, _) => unreachable!(),
        }
    }
}

impl<K: IntKey, X> Node<(Stored<K>, X)> {
    /// A mutable reference to the value of the pair.
    #[inline(always)]
    pub(in crate::proved::table) fn value_mut(&mut self) -> &mut X {
        match &mut self.form {
            NodeForm::Held(_, _, pair) => &mut pair.1,
            NodeForm::Free(_, _) => unreachable!(),
        }
    }
}

impl<K: IntKey, V> Node<(Stored<K>, Kept<V>)> {
    /// Calls the closure at the pair of a node that holds one, with a mutable reference to its
    /// value.
    #[inline(always)]
    pub(in crate::proved::table) fn write<F: FnMut(K, &mut V)>(&mut self, f: &mut F) {
        match &mut self.form {
            NodeForm::Held(_, _, pair) => write_pair(pair, f),
            NodeForm::Free(_, _) => unreachable!(),
        }
    }

    /// Whether the closure picks the pair of a node that holds one. It may write the value.
    #[inline(always)]
    pub(in crate::proved::table) fn pick<F: FnMut(K, &mut V) -> bool>(&mut self, f: &mut F) -> bool {
        match &mut self.form {
            NodeForm::Held(_, _, pair) => picks_pair(pair, f),
            NodeForm::Free(_, _) => unreachable!(),
        }
    }
}

// Only Rust has what follows. It is tested, not proved.
mod written;
