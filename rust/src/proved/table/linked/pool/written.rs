//! The nodes of a pool are lent one by one, and put into the order of a walk before, so that it comes
//! to them in the order in which they lie there.
use super::{NODE_LIMIT, NOWHERE, Node, Pool};
use crate::memory::Vec;
use crate::memory::alloc::{Allocator, Global};
use crate::proved::table::bits::written::MarkedMut;
use core::mem::{replace, take};
use core::slice;

/// The bit of a number that marks the last node of a chain. No number of a node has it: 2^47 nodes
/// would take a million gigabytes.
const LAST: usize = 1 << 47;

/// The nodes that are left to be lent.
pub(in crate::proved::table) struct NodesMut<'a, P> {
    left: slice::IterMut<'a, Node<P>>,
    /// How many are lent, which is the index of the first one that is left.
    lent: usize,
}

/// The nodes that are left to be lent, while they get numbers in the order of a walk.
struct Order<'a, P> {
    left: &'a mut [Node<P>],
    lent: usize,
    /// How many have a number.
    count: usize,
}

impl<P> Default for NodesMut<'_, P> {
    fn default() -> Self {
        NodesMut { left: Default::default(), lent: 0 }
    }
}

impl<P> Pool<P, Global> {
    /// No nodes.
    pub(in crate::proved::table) const NONE: Self =
        Pool { nodes: Vec::new(Global), free: NOWHERE, spare: 0 };
}

impl<P, A: Allocator> Pool<P, A> {
    /// The nodes, to be written.
    #[inline]
    pub(in crate::proved::table) fn nodes_mut(&mut self) -> &mut [Node<P>] {
        &mut self.nodes
    }

    /// The nodes, to be lent one by one to a walk through filled slots. If some are free, all are put
    /// into the order of the walk, and the free ones, which are then behind the others, are removed:
    /// there is room for as many new ones.
    #[inline]
    pub(in crate::proved::table) fn lend(&mut self, filled: MarkedMut<Node<P>>) -> NodesMut<'_, P> {
        if self.spare > 0 {
            let order = Order { left: &mut self.nodes, lent: 0, count: 0 };
            order.settle(&mut Node::empty(), filled);
            let held = self.held();
            self.nodes.truncate(held);
            self.free = NOWHERE;
            self.spare = 0;
        }
        NodesMut { left: self.nodes.iter_mut(), lent: 0 }
    }
}

impl<'a, P> NodesMut<'a, P> {
    /// Lends the next node.
    // cold, so that steps from slot to slot need no jump; random keys took no longer by it
    #[cold]
    #[inline]
    pub(in crate::proved::table) fn next(&mut self) -> Option<&'a mut Node<P>> {
        self.lent += 1;
        self.left.next()
    }

    /// Whether a link leads to the next node.
    #[inline(always)]
    pub(in crate::proved::table) fn begin_at(&self, link: usize) -> bool {
        link == self.lent
    }

    /// Puts the nodes that are left, none of which is free, into the order of a walk that goes on
    /// behind the pair of `head`, and then through filled slots. It allocates nothing, and the walk
    /// stays.
    #[inline(always)]
    pub(in crate::proved::table) fn order(&mut self, head: &mut Node<P>, filled: MarkedMut<Node<P>>) {
        let left = take(&mut self.left).into_slice();
        let order = Order { left: &mut *left, lent: self.lent, count: 0 };
        order.settle(head, filled);
        self.left = left.iter_mut();
    }
}

impl<P> Order<'_, P> {
    /// Puts the nodes into the order of the walk, and the free ones behind. What a walk keeps isn't
    /// passed by reference, so that it stays in registers.
    #[cold]
    #[inline(never)]
    fn settle(mut self, head: &mut Node<P>, filled: MarkedMut<Node<P>>) {
        self.number(head);
        filled.for_each_that(Node::leads_on, |slot| self.number(slot));
        for index in 0..self.left.len() {
            self.place(index);
        }
        self.link();
    }

    /// Gives the nodes behind the pair of a slot or a node the next numbers in place of their links.
    #[inline(always)]
    fn number(&mut self, head: &mut Node<P>) {
        let Some((mut link, _)) = head.get() else { return };
        head.set_link(self.lent + self.count);
        while link < NODE_LIMIT {
            let node = &mut self.left[link - self.lent];
            let Some((next, _)) = node.get() else { return };
            node.set_link(if next < NODE_LIMIT { self.count } else { self.count | LAST });
            self.count += 1;
            link = next;
        }
    }

    /// Moves the node at an index to its number, the one that lies there to its own, and so on, up to
    /// a place that is free.
    #[inline(always)]
    fn place(&mut self, index: usize) {
        let mut node = replace(&mut self.left[index], Node::empty());
        while let Some((number, _)) = node.get() {
            node = replace(&mut self.left[number & !LAST], node);
        }
    }

    /// Gives the nodes with numbers links again.
    fn link(self) {
        for index in 0..self.count {
            if let Some((number, _)) = self.left[index].get() {
                let next = self.lent + index + 1;
                self.left[index].set_link(if number & LAST == 0 { next } else { NOWHERE });
            }
        }
    }
}
