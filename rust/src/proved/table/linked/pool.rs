//! The nodes of all slots, of which those without a pair are used first.

use crate::memory::prelude::*;
use crate::proved::table::kept::Kept;
use crate::proved::table::key::IntKey;
use crate::proved::table::linked::node::{NODE_LIMIT, NOWHERE, Node};
use crate::proved::table::table::stored::Stored;
use crate::memory::alloc::{AllocError, Allocator};

/// Nodes, and a list of those without a pair. Contracts see what each has, how many hold a pair,
/// and how many pairs there is memory for in all. A call that needs more than `NODE_LIMIT` nodes
/// fails as if an allocation failed.
pub(in crate::proved::table) struct Pool<P, A: Allocator> {
    nodes: Vec<Node<P>, A>,
    free: usize,
    spare: usize,
}

impl<P, A: Allocator> Pool<P, A> {
    /// How many nodes hold a pair.
    pub(in crate::proved::table) fn held(&self) -> usize {
        self.nodes.len() - self.spare
    }

    /// The link and the pair of a node, if it is there and holds one.
    #[inline(always)]
    pub(in crate::proved::table) fn get(&self, at: usize) -> Option<(usize, &P)> {
        if at >= self.nodes.len() {
            return None;
        }
        self.nodes[at].get()
    }

    /// The link of a node that holds a pair.
    #[inline(always)]
    pub(in crate::proved::table) fn link(&self, at: usize) -> usize {
        match self.nodes[at].get() {
            Some((link, _)) => link,
            None => unreachable!(),
        }
    }

    /// The pair of a node that holds one.
    #[inline(always)]
    pub(in crate::proved::table) fn pair(&self, at: usize) -> &P {
        match self.nodes[at].get() {
            Some((_, pair)) => pair,
            None => unreachable!(),
        }
    }

    /// Gives a node that holds a pair another link.
    #[inline(always)]
    pub(in crate::proved::table) fn set_link(&mut self, at: usize, link: usize) {
        self.nodes[at].set_link(link);
    }

    /// Puts a pair into the place of a node's pair, and returns the old one.
    #[inline(always)]
    pub(in crate::proved::table) fn replace(&mut self, at: usize, pair: P) -> P {
        self.nodes[at].replace(pair)
    }

    /// Removes the pair of a node, which is used again before any other one that is free.
    #[inline(always)]
    pub(in crate::proved::table) fn release(&mut self, at: usize) -> P {
        let pair = self.nodes[at].release(self.free);
        self.free = at;
        self.spare += 1;
        pair
    }

    /// Puts a pair with a link into a node that is free, or into a new one, and returns which. If
    /// an allocation fails, it returns the pair.
    #[inline(always)]
    pub(in crate::proved::table) fn add(&mut self, link: usize, pair: P) -> Result<usize, P> {
        if self.spare == 0 {
            return self.add_new(link, pair);
        }
        let at = self.free;
        let Some(next) = self.nodes[at].next_free() else {
            unreachable!();
        };
        self.free = next;
        self.spare -= 1;
        self.nodes[at].fill(link, pair);
        Ok(at)
    }

    /// Puts a pair with a link into a new node behind the others, none of which may be free, and
    /// returns which. If an allocation fails, it returns the pair.
    pub(in crate::proved::table) fn add_new(&mut self, link: usize, pair: P) -> Result<usize, P> {
        let at = self.nodes.len();
        if at == NODE_LIMIT || self.nodes.reserve(1).is_err() {
            return Err(pair);
        }
        self.nodes.push_reserved(Node::held(link, pair));
        Ok(at)
    }

    /// Drops all pairs, and keeps the memory of the nodes.
    pub(in crate::proved::table) fn clear(&mut self) {
        self.nodes.truncate(0);
        self.free = NOWHERE;
        self.spare = 0;
    }

    /// Makes room for `additional` more pairs. If an allocation fails, nothing changes.
    pub(in crate::proved::table) fn reserve(&mut self, additional: usize) -> Result<(), AllocError> {
        if additional <= self.spare {
            return Ok(());
        }
        let new = additional - self.spare;
        if new > NODE_LIMIT - self.nodes.len() {
            return Err(AllocError);
        }
        self.nodes.reserve_exact(new)
    }

    /// A pool without a node, which has room for `room` pairs.
    pub(in crate::proved::table) fn with_room(alloc: A, room: usize) -> Result<Pool<P, A>, AllocError> {
        if room > NODE_LIMIT {
            return Err(AllocError);
        }
        let nodes = Vec::with_capacity(alloc, room)?;
        Ok(Pool {
            nodes,
            free: NOWHERE,
            spare: 0,
        })
    }
}

impl<K: IntKey, X, A: Allocator> Pool<(Stored<K>, X), A> {
    /// A mutable reference to the value of the pair of a node that holds one.
    #[inline(always)]
    pub(in crate::proved::table) fn value_mut(&mut self, at: usize) -> &mut X {
        self.nodes[at].value_mut()
    }
}

impl<K: IntKey, V, A: Allocator> Pool<(Stored<K>, Kept<V>), A> {
    /// Calls the closure at the pair of a node that holds one, with a mutable reference to its
    /// value.
    #[inline(always)]
    pub(in crate::proved::table) fn write<F: FnMut(K, &mut V)>(&mut self, at: usize, f: &mut F) {
        self.nodes[at].write(f);
    }

    /// Whether the closure picks the pair of a node that holds one. It may write the value.
    #[inline(always)]
    pub(in crate::proved::table) fn pick<F: FnMut(K, &mut V) -> bool>(&mut self, at: usize, f: &mut F) -> bool {
        self.nodes[at].pick(f)
    }
}

// Only Rust has what follows. It is tested, not proved.
pub mod written;
