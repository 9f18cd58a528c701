//! The map.
use crate::proved::map::IntMap as Proved;

// `basic` is the first, so that its calls are the first on the page of the map
mod basic;
mod insert;
mod many;
mod room;
mod size;
mod walk;

/// A hash map from integer keys to values.
///
/// The pairs lie in slots, whose number, the capacity, is a power of two. A key's slot is its
/// number times an odd constant, modulo the capacity: two keys share one if and only if their
/// numbers are equal modulo the capacity. Iteration goes through the slots in turn, and through
/// each from front to back: with 8 slots the keys 0 to 7 come as 0, 5, 2, 7, 4, 1, 6, 3. So order
/// and capacity depend on the calls alone: there is no random seed, and the same calls give the
/// same order on every run. Only [`shrink_to`](IntMap::shrink_to) and
/// [`shrink_to_fit`](IntMap::shrink_to_fit) make the capacity smaller, and `clone_from`, which
/// takes that of its source.
///
/// Lines that begin with "Proved" are for readers of the proof: the
/// [crate's page](crate#what-is-proved) explains them.
///
/// # Cost
///
/// In what the calls say of their cost, *n* is the number of pairs, *c* the capacity, and *s* the
/// number of pairs in the slot of the key. With the load factor of a new map, *s* is at most 2 for
/// keys that count up without gaps, and small for random ones. Keys whose low bits are equal share
/// a slot, and then *s* is large: see [`IntKey`](crate::IntKey). Of the slots that have no pair,
/// walks read one bit each, 64 at a time.
///
/// # Memory
///
/// A slot has its first pair. The further pairs of all slots lie in the nodes of one vector, and
/// links join those of a slot to a chain, so a call on one of them takes time in the pairs of its
/// slot. A slot and a node take the space of a pair and 8 bytes, or more where the alignment asks
/// for it: 24 bytes each for keys and values of 64 bits. A slot takes them even if it is empty, so
/// put values above some 200 bytes into a `Box`.
///
/// A new map has no nodes, even if it is made with room. A second pair in a slot takes a node that
/// a removal has freed, if there is one. If there is none, the vector makes room as Rust's `Vec`
/// does. A map that grows asks for more slots in the same vector, and for nodes for as many pairs as
/// were behind first ones, before any pair moves; the old nodes are there until all have moved.
/// Removals and `clear` give no memory back, but freed nodes serve all slots. Unless
/// [`reserve_insertions`](IntMap::reserve_insertions) made room for more, there are at most four
/// nodes, or twice as many as the most pairs that were behind the first ones of their slots at one
/// time.
///
/// In a run, a map held 10,000 pairs of 56 bytes, while new keys rose and old ones were removed at
/// random. The map took 1.05 MB at first, 1.18 MB after 100,000 removals, and 1.18 MB after
/// 10,000,000. Its [`clone`](Clone::clone) took 1.13 MB.
///
/// With keys and values of 64 bits, this map takes, for most numbers of pairs, 1.6 to 1.9 times the
/// bytes of std's for random keys, and 1.4 times for ids without gaps, as counted at the allocator.
/// But while std's map has grown and this map hasn't, this map may take less than std's. An empty
/// map allocates 104 bytes beside the 120 of [`IntMap`] itself, std's nothing beside its 48.
///
/// # Examples
///
/// A new map has 4 slots, so the keys 0, 4 and 8 share one:
///
/// ```
/// use intmap_proved::IntMap;
///
/// let mut map = IntMap::new();
/// map.insert(0u64, 'a');
/// map.insert(4, 'b');
/// map.insert(8, 'c');
/// assert_eq!(format!("{map:?}"), "{0: 'a', 4: 'b', 8: 'c'}");
/// map.remove(0);
/// assert_eq!(format!("{map:?}"), "{8: 'c', 4: 'b'}");
/// ```
pub struct IntMap<K, V> {
    pub(crate) map: Proved<K, V>,
}
