//! The pairs of a map, each with a mutable reference to its value, and those of several keys.
//!
//! The proved iterator hands out the references from one loan of all values, which takes `unsafe`
//! code. This one borrows slot after slot and node after node, as Rust checks it.
use super::{IntoIter, IntoKeys, IntoValues, Iter, Keys, Values, ValuesMut};
use crate::memory::alloc::{Allocator, Global};
use crate::proved::map::map::IntMap;
use crate::proved::table::kept::Kept;
use crate::proved::table::steps::Steps;
use crate::proved::table::table::stored::Sought;
use crate::proved::table::table::written::PairsMut;
use crate::proved::table::IntKey;
use crate::proved::table::table::{Progress, Table};
use core::array::from_fn;

/// The pairs of a map, each with a mutable reference to its value, made by [`IntMap::iter_mut`].
pub struct IterMut<'a, K, V, A: Allocator + Copy = Global> {
    pairs: PairsMut<'a, K, Kept<V>, A>,
}

impl<'a, K: IntKey, V, A: Allocator + Copy> Iterator for IterMut<'a, K, V, A> {
    type Item = (&'a K, &'a mut V);

    #[inline(always)]
    fn next(&mut self) -> Option<(&'a K, &'a mut V)> {
        let (key, kept) = self.pairs.next()?;
        Some((key, kept.get_mut()))
    }
}

impl<K: IntKey, V> IntMap<K, V> {
    /// A map without slots, for iterators without items. No other call takes it.
    fn none() -> IntMap<K, V> {
        let (placed, compared, reserved) = (Steps::new(), Steps::new(), Steps::new());
        IntMap { table: Table::NONE, len: 0, threshold: 0, factor: 0, placed, compared, reserved }
    }
}

/// Writes an iterator without items.
macro_rules! empty {
    ($($name:ident [$($lifetime:tt)*] = $made:expr;)*) => { $(
        impl<$($lifetime)* K: IntKey, V> Default for $name<$($lifetime)* K, V> {
            fn default() -> Self {
                $made
            }
        }
    )* };
}

empty! {
    Iter ['a,] = Iter { pairs: const { &Table::NONE }.pairs() };
    Keys ['a,] = Keys { pairs: Iter::default() };
    Values ['a,] = Values { pairs: Iter::default() };
    IterMut ['a,] = IterMut { pairs: PairsMut::default() };
    ValuesMut ['a,] = ValuesMut { pairs: IterMut::default() };
    IntoIter [] = IntMap::none().into_iter();
    IntoKeys [] = IntMap::none().into_keys();
    IntoValues [] = IntMap::none().into_values();
}

impl<K: IntKey, V, A: Allocator + Copy> IntMap<K, V, A> {
    /// An iterator over the pairs in iteration order, each with a mutable reference to its value.
    /// It allocates nothing. This call or a step may put pairs that share a slot with another into
    /// iteration order in memory.
    pub fn iter_mut(&mut self) -> IterMut<'_, K, V, A> {
        IterMut { pairs: self.table.pairs_mut() }
    }

    /// The values of these keys, by mutable reference. It panics if two keys have one pair.
    #[track_caller]
    pub fn get_disjoint_mut<const N: usize>(&mut self, keys: [K; N]) -> [Option<&mut V>; N] {
        let spots = keys.map(|key| self.locate(&Sought::new(key)).ok().and_then(|at| self.table.spot_of(at)));
        let mut order: [usize; N] = from_fn(|number| number);
        order.sort_unstable_by_key(|number| spots[*number]);
        let mut values = [const { None }; N];
        let mut rest = self.table.spots_mut();
        let mut last = None;
        for number in order {
            if let Some(spot) = spots[number] {
                assert!(last != spots[number], "two of the keys are equal");
                last = spots[number];
                values[number] = rest.value_at(spot).map(Kept::get_mut);
            }
        }
        values
    }

    /// Keeps the pairs for which the closure returns true, in their order. It may write each value.
    pub fn retain_mut<F: FnMut(K, &mut V) -> bool>(&mut self, f: &mut F) {
        self.len = self.table.retain_mut(f);
    }

    /// The next pair that the closure picks, which it removes: a step of an iterator that has the
    /// progress and the closure elsewhere.
    pub fn extract_step<F: FnMut(K, &mut V) -> bool>(
        &mut self,
        at: &mut Progress,
        test: &mut F,
    ) -> Option<(K, V)> {
        self.extract_next(at, test)
    }
}
