//! What iterators say of themselves, and how they end.
use intmap_proved::{IntMap, IntSet, iter, set};
use std::iter::FusedIterator;

fn three() -> IntMap<u64, char> {
    IntMap::from([(0, 'a'), (1, 'b'), (2, 'c')])
}

/// Takes an iterator of three items to its end, and past it.
fn counts_down<I: ExactSizeIterator + FusedIterator>(name: &str, mut items: I) {
    for left in (0..3).rev() {
        assert!(items.next().is_some(), "{name}");
        assert_eq!((items.len(), items.size_hint()), (left, (left, Some(left))), "{name}");
    }
    assert!(items.next().is_none() && items.next().is_none(), "{name} stays at its end");
    assert_eq!(items.len(), 0, "{name}");
}

#[test]
fn borrowing_iterators_know_how_many_are_left() {
    let mut map = three();
    counts_down("iter", map.iter());
    counts_down("keys", map.keys());
    counts_down("values", map.values());
    counts_down("iter_mut", map.iter_mut());
    counts_down("values_mut", map.values_mut());
    counts_down("a loop", (&map).into_iter());
    counts_down("a loop that writes", (&mut map).into_iter());
    counts_down("drain", map.drain());
}

#[test]
fn owning_iterators_know_how_many_are_left() {
    counts_down("into_iter", three().into_iter());
    counts_down("into_keys", three().into_keys());
    counts_down("into_values", three().into_values());
    counts_down("into_iter of a set", IntSet::from([0_u64, 4, 8]).into_iter());
    counts_down("drain of a set", IntSet::from([0_u64, 4, 8]).drain());
}

#[test]
fn a_map_that_is_collected_again_has_slots_for_the_length_that_was_said() {
    let mut large = IntMap::with_capacity(1000);
    large.extend((0..9).map(|key| (key, key)));
    let again = |map: IntMap<u64, u64>| map.capacity();
    assert_eq!(again(large.clone().into_iter().collect()), 16, "9 were said");
    assert_eq!(again(large.clone().drain().collect()), 16, "9 were said");
    assert_eq!(again(large.clone().into_iter().filter(|_| true).collect()), 8, "none was said");
}

#[test]
fn a_default_iterator_has_no_items() {
    fn is_empty<I: ExactSizeIterator + FusedIterator + Default + std::fmt::Debug>(name: &str) {
        let mut items = I::default();
        let text = format!("{items:?}");
        assert!(text == "[]" || text.ends_with("{ left: 0 }"), "{name}: {text}");
        assert_eq!((items.len(), items.next().is_none()), (0, true), "{name}");
        assert!(items.next().is_none() && items.len() == 0, "{name} stays at its end");
        assert!(I::default().next().is_none(), "{name}");
    }
    is_empty::<iter::Iter<'_, u64, String>>("iter");
    is_empty::<iter::IterMut<'_, u64, String>>("iter_mut");
    is_empty::<iter::Keys<'_, u64, String>>("keys");
    is_empty::<iter::Values<'_, u64, String>>("values");
    is_empty::<iter::ValuesMut<'_, u64, String>>("values_mut");
    is_empty::<iter::IntoIter<u64, String>>("into_iter");
    is_empty::<iter::IntoKeys<u64, String>>("into_keys");
    is_empty::<iter::IntoValues<u64, String>>("into_values");
    is_empty::<set::Iter<'_, u64>>("iter of a set");
    is_empty::<set::IntoIter<u64>>("into_iter of a set");
    assert!(iter::Iter::<u64, String>::default().clone().next().is_none());
}

#[test]
fn a_clone_of_an_iterator_continues_from_there() {
    let map = three();
    let (mut pairs, mut keys, mut values) = (map.iter(), map.keys(), map.values());
    assert!(pairs.next().is_some() && keys.next().is_some() && values.next().is_some());
    assert!(pairs.clone().eq([(&1, &'b'), (&2, &'c')]));
    assert!(keys.clone().eq(&[1, 2]));
    assert!(values.clone().eq(&['b', 'c']));
    assert!(pairs.eq([(&1, &'b'), (&2, &'c')]), "the first is left as it was");
}

#[test]
fn an_empty_map_has_no_item() {
    for empty in [IntMap::new(), three().drain().take(0).collect(), cleared()] {
        let mut map = empty;
        assert_eq!((map.iter().count(), map.keys().count(), map.values().count()), (0, 0, 0));
        assert_eq!((map.iter_mut().count(), map.values_mut().count()), (0, 0));
        assert_eq!((map.drain().count(), map.extract_if(|_, _| true).count()), (0, 0));
        assert_eq!(map.clone().into_keys().count() + map.clone().into_values().count(), 0);
        assert_eq!(map.into_iter().next(), None);
    }
}

fn cleared() -> IntMap<u64, char> {
    let mut map: IntMap<u64, char> = (0..100).map(|key| (key, 'a')).collect();
    map.clear();
    map
}

#[test]
fn values_are_written_by_each_iterator_that_writes() {
    let mut map: IntMap<u64, u64> = (0..300).map(|key| (key * key, 0)).collect();
    for (key, value) in &mut map {
        *value += key;
    }
    for (key, value) in map.iter_mut() {
        *value += key;
    }
    map.for_each_mut(|key, value| *value += key);
    map.values_mut().for_each(|value| *value += 1);
    assert_eq!(map.len(), 300);
    assert!(map.iter().all(|(key, value)| *value == 3 * key + 1), "{map:?}");
}

#[test]
fn an_iterator_that_writes_lends_all_values_at_once() {
    let mut map: IntMap<u64, u64> = (0..100).map(|key| (key << 3, key)).collect();
    let mut all: Vec<&mut u64> = map.values_mut().collect();
    all.reverse();
    for (number, value) in all.into_iter().enumerate() {
        *value = number as u64;
    }
    let mut numbers: Vec<u64> = map.into_values().collect();
    numbers.sort_unstable();
    assert!(numbers.into_iter().eq(0..100));
}

/// Nothing outside of a map counts the words of marks that a step passes. With a `drain` that began
/// at the first slot again at each step, this would take many minutes.
#[test]
fn a_drain_of_eight_million_slots_ends() {
    let mut map: IntMap<u32, ()> = IntMap::with_capacity(1 << 23);
    map.extend((0..1 << 21).map(|key| (key, ())));
    assert_eq!((map.drain().count(), map.len(), map.capacity()), (1 << 21, 0, 1 << 23));
}
