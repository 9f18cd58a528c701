//! The pairs of all slots, slot after slot, each with a mutable reference to its value; and those at
//! places that are known.
//!
//! Rust lends the elements of a vector one by one in the order in which they lie there. So the walk
//! looks at each link before it goes on. If it leads to another node than the next one, the nodes that
//! are left are put into the order of the walk first. Nothing has to be kept between two walks.
use super::Slots;
use crate::memory::Vec;
use crate::memory::alloc::{Allocator, Global};
use crate::proved::table::IntKey;
use crate::proved::table::bits::Bits;
use crate::proved::table::bits::written::{MarkedMut, take_at};
use crate::proved::table::kept::Kept;
use crate::proved::table::linked::chain::seek;
use crate::proved::table::linked::closures::written::retain_mut;
use crate::proved::table::linked::node::{NODE_LIMIT, Node};
use crate::proved::table::linked::pool::Pool;
use crate::proved::table::linked::pool::written::NodesMut;
use crate::proved::table::table::slots::pairs::unmark_if;
use crate::proved::table::table::stored::Stored;
use core::marker::PhantomData;

/// The pairs that are left: the next ones of the nodes, if the last pair has a link to a further one,
/// then those of the filled slots behind them.
pub struct PairsMut<'a, K, X, A: Allocator> {
    has_further: bool,
    nodes: NodesMut<'a, (Stored<K>, X)>,
    filled: MarkedMut<'a, Node<(Stored<K>, X)>>,
    allocator: PhantomData<A>,
}

impl<'a, K: IntKey, X, A: Allocator> PairsMut<'a, K, X, A> {
    /// The next stored pair.
    #[inline(always)]
    fn next_pair(&mut self) -> Option<&'a mut (Stored<K>, X)> {
        let node = if self.has_further { self.nodes.next() } else { self.filled.next() }?;
        let (link, _) = node.get()?;
        self.has_further = link < NODE_LIMIT;
        if self.has_further && !self.nodes.begin_at(link) {
            self.nodes.order(node, self.filled.rest());
        }
        let (_, pair) = node.get_mut()?;
        Some(pair)
    }
}

impl<'a, K: IntKey, X, A: Allocator> Iterator for PairsMut<'a, K, X, A> {
    type Item = (&'a K, &'a mut X);

    #[inline(always)]
    fn next(&mut self) -> Option<(&'a K, &'a mut X)> {
        let (key, value) = self.next_pair()?;
        Some((key.key(), value))
    }
}

/// Where a pair lies: in a slot or in a node, by its index.
#[derive(Clone, Copy, PartialEq, Eq, PartialOrd, Ord)]
pub enum Spot {
    First(usize),
    Further(usize),
}

/// The elements of a slice that are left, and how many are not.
struct Rest<'a, T> {
    elements: &'a mut [T],
    passed: usize,
}

impl<'a, T> Rest<'a, T> {
    /// All elements of a slice.
    fn of(elements: &'a mut [T]) -> Rest<'a, T> {
        Rest { elements, passed: 0 }
    }

    /// The element at an index that is behind all those of earlier calls.
    fn take(&mut self, index: usize) -> &'a mut T {
        let between = index - self.passed;
        self.passed = index + 1;
        take_at(&mut self.elements, between)
    }
}

/// The values at spots in ascending order, by mutable reference.
pub struct SpotsMut<'a, K, X> {
    slots: Rest<'a, Node<(Stored<K>, X)>>,
    nodes: Rest<'a, Node<(Stored<K>, X)>>,
}

impl<'a, K: IntKey, X> SpotsMut<'a, K, X> {
    /// The value at a spot that is behind all spots of earlier calls.
    pub fn value_at(&mut self, spot: Spot) -> Option<&'a mut X> {
        let (_, pair) = match spot {
            Spot::First(index) => self.slots.take(index).get_mut()?,
            Spot::Further(index) => self.nodes.take(index).get_mut()?,
        };
        Some(&mut pair.1)
    }
}

impl<K: IntKey, X> Slots<K, X, Global> {
    /// No slots, for iterators without items.
    pub(in crate::proved::table) const NONE: Self =
        Slots { mask: 0, bits: Bits::NONE, slots: Vec::new(Global), pool: Pool::NONE };
}

impl<K: IntKey, X, A: Allocator> Default for PairsMut<'_, K, X, A> {
    fn default() -> Self {
        PairsMut {
            has_further: false,
            nodes: Default::default(),
            filled: const { &Bits::NONE }.pick(&mut []),
            allocator: PhantomData,
        }
    }
}

impl<K: IntKey, X, A: Allocator> Slots<K, X, A> {
    /// Where the pair at a place of a slot lies.
    pub(in crate::proved::table) fn spot_of(&self, index: usize, place: usize) -> Option<Spot> {
        if place == 0 {
            return Some(Spot::First(index));
        }
        let (link, _) = self.slots[index].get()?;
        Some(Spot::Further(seek(&self.pool, link, place - 1)))
    }

    /// The values at spots in ascending order, by mutable reference.
    pub(in crate::proved::table) fn spots_mut(&mut self) -> SpotsMut<'_, K, X> {
        SpotsMut { slots: Rest::of(&mut self.slots), nodes: Rest::of(self.pool.nodes_mut()) }
    }

    /// The pairs, slot after slot, each with a mutable reference to its value.
    pub(in crate::proved::table) fn pairs_mut(&mut self) -> PairsMut<'_, K, X, A> {
        let mut filled = self.bits.pick(&mut self.slots);
        let nodes = self.pool.lend(filled.rest());
        PairsMut { has_further: false, nodes, filled, allocator: PhantomData }
    }
}

impl<K: IntKey, V, A: Allocator> Slots<K, Kept<V>, A> {
    /// Keeps the pairs for which the closure returns true, slot after slot, and returns their number.
    /// What is left of a word of marks is kept, as by the proved `retain`.
    pub(in crate::proved::table) fn retain_mut<F: FnMut(K, &mut V) -> bool>(
        &mut self,
        f: &mut F,
    ) -> usize {
        let (mut count, mut from) = (0, 0);
        let mut left = self.marks_from(from);
        while let Some(index) = self.next_in(&mut left, from) {
            from = index + 1;
            let slot = &mut self.slots[index];
            count += retain_mut(slot, &mut self.pool, f);
            unmark_if(&mut self.bits, slot.is_empty(), index);
        }
        count
    }
}
