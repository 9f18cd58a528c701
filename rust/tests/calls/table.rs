//! Each public call of a map, its entries and a set, on one line: its name, the call on a map, and
//! the same on a plain list, whose methods count the numbers of keys that are due to be read. A
//! line that does more than one call says so behind the name. `forms` and `counts` go over the
//! lines, and `tools/erase --check` finds a call that has none.
use crate::list::{List, slots_for};
use crate::told::{Key, Map, Set, Tells};
use intmap_proved::{Cause, Entry, IntMap, OccupiedEntry, Refused, VacantEntry};
use std::mem::{replace, take};

/// A call on a map or a set, with a key or what it makes of the key, and on a list. Both return
/// what they are told, as numbers.
pub type Call<T> = (&'static str, fn(&mut T, Key) -> Vec<u64>, fn(&mut List, Key) -> Vec<u64>);

/// A call on two sets, and on two lists.
pub type Both = (&'static str, fn(&Set, &Set) -> Vec<u64>, fn(&List, &List) -> Vec<u64>);

/// Numbers, some of them several times, and many of one slot.
const NUMBERS: [u64; 24] =
    [5, 0, 64, 128, 5, 192, 256, 7, 320, 0, 384, 9, 1, 2, 64, 3, 448, 512, 7, 576, 6, 4, 8, 576];

/// So many of them.
fn some(key: Key) -> impl Iterator<Item = Key> {
    NUMBERS.into_iter().take(size(key) % 25).map(Key)
}

/// So many pairs.
fn pairs(key: Key) -> impl Iterator<Item = (Key, u64)> {
    some(key).zip(9..)
}

/// A number of slots or of pairs.
fn size(key: Key) -> usize {
    key.0 as usize % 99
}

/// A load factor, in thousandths, that is a number of 32 bits too.
fn factor(key: Key) -> usize {
    [125, 250, 500, 1000, 4000][key.0 as usize % 5]
}

fn factor_of_floats(key: Key) -> f32 {
    factor(key) as f32 / 1000.
}

fn all<T>(items: impl IntoIterator<Item = T>) -> Vec<T> {
    items.into_iter().collect()
}

fn firsts(pairs: Vec<(u64, u64)>) -> Vec<u64> {
    all(pairs.into_iter().map(|it| it.0))
}

fn sorted(map: IntMap<u64, u64>) -> Vec<(u64, u64)> {
    let mut pairs = all(map);
    pairs.sort_unstable();
    pairs
}

fn more(value: &mut u64) -> u64 {
    *value += 50;
    *value
}

fn occupied(map: &mut Map, key: Key) -> Option<OccupiedEntry<'_, Key, u64>> {
    if let Entry::Occupied(entry) = map.entry(key) { Some(entry) } else { None }
}

fn vacant(map: &mut Map, key: Key) -> Option<VacantEntry<'_, Key, u64>> {
    if let Entry::Vacant(entry) = map.entry(key) { Some(entry) } else { None }
}

fn store(list: &mut List, key: Key, value: u64) {
    list.store(key, value);
}

fn add(list: &mut List, key: Key, _: u64) {
    list.add(key, 0);
}

/// A member in place of an equal one.
fn replaced(list: &mut List, key: Key) -> Option<Key> {
    let old = list.find(key).map(|_| list.remove(key));
    list.add(key, 0);
    old.map(|_| key)
}

/// Writes a slice of calls, each of which is a name, an expression of a map and one of a list.
macro_rules! calls {
    ($calls:ident: [$call:ty], |$it:ident, $list:ident, $key:ident|
        $($name:literal = $on_map:expr, $on_list:expr;)*) => {
        #[allow(unused_variables)]
        pub const $calls: &[$call] = &[$(
            ($name, |$it, $key| Tells::told($on_map), |$list, $key| Tells::told($on_list)),
        )*];
    };
}

calls! { ON_KEY: [Call<Map>], |map, list, key|
    "IntMap::get" = map.get(key), list.find(key);
    "IntMap::get_mut" = map.get_mut(key).map(more), list.find_mut(key).map(more);
    "IntMap::get_disjoint_mut" = all(map.get_disjoint_mut([key])).pop().unwrap().map(more), list.find_mut(key).map(more);
    "IntMap::get_key_value" = map.get_key_value(key), list.find(key).map(|it| (key, it));
    "IntMap::contains_key" = map.contains_key(key), list.find(key).is_some();
    "IntMap[key]" = if map.keys().any(|it| it.0 == key.0) { Some(map[key]) } else { map.get(key).copied() }, list.find(key);
    "IntMap::remove" = map.remove(key), list.remove(key);
    "IntMap::remove_entry" = map.remove_entry(key), list.remove(key).map(|it| (key, it));
    "IntMap::insert" = map.insert(key, 1), list.store(key, 1);
    "IntMap::try_insert" = map.try_insert(key, 1), list.store(key, 1);
    "IntMap::insert_checked" = map.insert_checked(key, 1), list.add(key, 1);
    "IntMap::try_insert_checked" = map.try_insert_checked(key, 1), list.add(key, 1);
    "IntMap::extend by references" = map.extend([(&key, &1)]), store(list, key, 1);
    "IntMap::entry" = matches!(map.entry(key), Entry::Occupied(_)), list.find(key).is_some();
    "Entry::key" = *map.entry(key).key(), (list.look(key), key);
    "Entry's Debug" = _ = format!("{:?}", map.entry(key)), list.look(key);
    "Entry::and_modify" = _ = map.entry(key).and_modify(|it| *it += 50), _ = list.find_mut(key).map(more);
    "Entry::or_insert" = more(map.entry(key).or_insert(1)), more(list.or(key, 1));
    "Entry::try_or_insert" = map.entry(key).try_or_insert(1).map(more), more(list.or(key, 1));
    "Entry::or_insert_with" = more(map.entry(key).or_insert_with(|| 2)), more(list.or(key, 2));
    "Entry::try_or_insert_with" = map.entry(key).try_or_insert_with(|| 2).map(more), more(list.or(key, 2));
    "Entry::or_insert_with_key" = *map.entry(key).or_insert_with_key(|it| it.0), *list.or(key, key.0);
    "Entry::try_or_insert_with_key" = map.entry(key).try_or_insert_with_key(|it| it.0).copied(), *list.or(key, key.0);
    "Entry::or_try_insert_with" = map.entry(key).or_try_insert_with(|| Ok::<_, Refused<u64>>(3)).map(more), more(list.or(key, 3));
    "Entry::or_try_insert_with, an error" = map.entry(key).or_try_insert_with(|| Err(Cause::Memory)).map(more).ok(), list.find_mut(key).map(more);
    "Entry::or_default" = more(map.entry(key).or_default()), more(list.or(key, 0));
    "Entry::try_or_default" = map.entry(key).try_or_default().map(more), more(list.or(key, 0));
    "Entry::insert_entry" = *map.entry(key).insert_entry(5).get(), list.put(key, 5);
    "Entry::try_insert_entry" = map.entry(key).try_insert_entry(5).map(|it| *it.get()), list.put(key, 5);
    "OccupiedEntry::key" = occupied(map, key).map(|it| *it.key()), list.find(key).map(|_| key);
    "OccupiedEntry::get" = occupied(map, key).map(|it| *it.get()), list.find(key);
    "OccupiedEntry::get_mut" = occupied(map, key).map(|mut it| more(it.get_mut())), list.find_mut(key).map(more);
    "OccupiedEntry::into_mut" = occupied(map, key).map(|it| more(it.into_mut())), list.find_mut(key).map(more);
    "OccupiedEntry::insert" = occupied(map, key).map(|mut it| it.insert(6)), list.find_mut(key).map(|it| replace(it, 6));
    "OccupiedEntry::remove" = occupied(map, key).map(|it| it.remove()), list.remove(key);
    "OccupiedEntry::remove_entry" = occupied(map, key).map(|it| it.remove_entry()), list.remove(key).map(|it| (key, it));
    "OccupiedEntry::hand_over" = occupied(map, key).and_then(|it| it.hand_over(Ok)), list.remove(key);
    "OccupiedEntry::hand_over, back" = occupied(map, key).and_then(|it| it.hand_over(|it| Err::<u64, _>(it ^ 1))), list.hand_back(key, |it| it ^ 1);
    "VacantEntry::key" = vacant(map, key).map(|it| *it.key()), list.absent(key);
    "VacantEntry::into_key" = vacant(map, key).map(|it| it.into_key()), list.absent(key);
    "VacantEntry::insert" = vacant(map, key).map(|it| more(it.insert(7))), list.fill(key, 7).map(more);
    "VacantEntry::try_insert" = vacant(map, key).map(|it| it.try_insert(7).map(more)), list.fill(key, 7).map(more);
    "VacantEntry::insert_entry" = vacant(map, key).map(|it| *it.insert_entry(8).get()), list.fill(key, 8).copied();
    "VacantEntry::try_insert_entry" = vacant(map, key).map(|it| it.try_insert_entry(8).map(|it| *it.get())), list.fill(key, 8).copied();
}

calls! { ON_ALL: [Call<Map>], |map, list, key|
    "IntMap::new" = *map = Map::new(), *list = List::new(4);
    "IntMap::try_new" = *map = Map::try_new().unwrap(), *list = List::new(4);
    "IntMap::default" = *map = Map::default(), *list = List::new(4);
    "IntMap::with_capacity" = *map = Map::with_capacity(size(key)), *list = List::new(size(key));
    "IntMap::try_with_capacity" = *map = Map::try_with_capacity(size(key)).unwrap(), *list = List::new(size(key));
    "IntMap::with_room_for" = *map = Map::with_room_for(size(key)), *list = List::new(slots_for(size(key), 909));
    "IntMap::try_with_room_for" = *map = Map::try_with_room_for(size(key)).unwrap(), *list = List::new(slots_for(size(key), 909));
    "IntMap::from_iter" = *map = pairs(key).collect(), *list = List::of(pairs(key));
    "IntMap::try_from_iter" = *map = Map::try_from_iter(pairs(key)).unwrap(), *list = List::of(pairs(key));
    "IntMap::try_from_iter, of unknown length" = *map = Map::try_from_iter(pairs(key).filter(|_| true)).unwrap(), *list = List::of(pairs(key).filter(|_| true));
    "IntMap::from an array" = *map = Map::from(NUMBERS.map(|it| (Key(it), 9))), *list = List::of(NUMBERS.into_iter().map(|it| (Key(it), 9)));
    "IntMap::clone" = *map = map.clone(), ();
    "IntMap::try_clone" = *map = map.try_clone().unwrap(), ();
    "IntMap::clone_from" = map.clone_from(&pairs(key).collect()), list.copy(List::of(pairs(key)), store);
    "IntMap::extend" = map.extend(pairs(key)), list.extend(pairs(key));
    "IntMap::try_extend" = map.try_extend(pairs(key)), list.extend(pairs(key));
    "IntMap::len" = map.len(), list.pairs.len();
    "IntMap::is_empty" = map.is_empty(), list.pairs.is_empty();
    "IntMap::capacity" = map.capacity(), list.slots;
    "IntMap::load" = map.load(), list.load();
    "IntMap::load_rate" = map.load_rate(), list.pairs.len() as f64 / list.slots as f64 * 100.;
    "IntMap::assert_count" = map.assert_count(), true;
    "IntMap::collisions" = sorted(map.collisions()), list.collisions();
    "IntMap::try_collisions" = map.try_collisions().map(sorted), list.collisions();
    "IntMap::get_load_factor" = map.get_load_factor(), list.factor as f32 / 1000.;
    "IntMap::load_factor_thousandths" = map.load_factor_thousandths(), list.factor;
    "IntMap::set_load_factor" = map.set_load_factor(factor_of_floats(key)), list.meet(factor(key));
    "IntMap::try_set_load_factor" = map.try_set_load_factor(factor_of_floats(key)), list.meet(factor(key));
    "IntMap::try_set_load_factor_thousandths" = map.try_set_load_factor_thousandths(30 + size(key)), list.meet(30 + size(key));
    "IntMap::reserve" = map.reserve(size(key)), list.reserve(size(key));
    "IntMap::try_reserve" = map.try_reserve(9 * size(key)), list.reserve(9 * size(key));
    "IntMap::reserve_pairs" = map.reserve_pairs(size(key)), list.reserve_pairs(size(key));
    "IntMap::try_reserve_pairs" = map.try_reserve_pairs(9 * size(key)), list.reserve_pairs(9 * size(key));
    "IntMap::reserve_insertions" = map.reserve_insertions(size(key)), list.reserve_pairs(size(key));
    "IntMap::try_reserve_insertions" = map.try_reserve_insertions(9 * size(key)), list.reserve_pairs(9 * size(key));
    "IntMap::shrink_to" = map.shrink_to(size(key)), list.shrink_to(size(key), store);
    "IntMap::try_shrink_to" = map.try_shrink_to(size(key)), list.shrink_to(size(key), store);
    "IntMap::shrink_to_fit" = map.shrink_to_fit(), list.shrink_to(0, store);
    "IntMap::try_shrink_to_fit" = map.try_shrink_to_fit(), list.shrink_to(0, store);
    "IntMap::clear" = map.clear(), list.pairs.clear();
    "IntMap::retain" = map.retain(|key, it| (key.0 ^ it) % 3 > 0), list.pairs.retain(|it| (it.0 ^ it.1) % 3 > 0);
    "IntMap::retain_mut" = map.retain_mut(|key, it| more(it) % 3 > key.0 % 3), _ = list.extract(usize::MAX, |key, it| more(it) % 3 <= key % 3);
    "IntMap::retain, none" = map.retain(|_, _| false), list.pairs.clear();
    "IntMap::extract_if" = all(map.extract_if(|key, it| more(it) % 3 == key.0 % 3)), list.extract(usize::MAX, |key, it| more(it) % 3 == key % 3);
    "IntMap::extract_if, two" = all(map.extract_if(|key, it| more(it) % 3 == key.0 % 3).take(2)), list.extract(2, |key, it| more(it) % 3 == key % 3);
    "IntMap::drain" = all(map.drain()), list.drain(usize::MAX);
    "IntMap::drain, five" = all(map.drain().take(5)), list.drain(5);
    "IntMap::first_key_value" = map.first_key_value(), list.pairs.first();
    "IntMap::iter" = all(map.iter()), list.pairs.clone();
    "IntMap::iter, a clone of the rest" = { let mut rest = map.iter(); _ = rest.nth(4); all(rest.clone()) }, list.pairs[5.min(list.pairs.len())..].to_vec();
    "IntMap::iter by a loop" = all(&*map), list.pairs.clone();
    "IntMap::iter_mut" = map.iter_mut().for_each(|(key, it)| *it ^= key.0), list.each(|key, it| *it ^= key);
    "IntMap::iter_mut by a loop" = (&mut *map).into_iter().for_each(|(key, it)| *it ^= key.0), list.each(|key, it| *it ^= key);
    "IntMap::for_each_mut" = map.for_each_mut(|key, it| *it ^= key.0), list.each(|key, it| *it ^= key);
    "IntMap::keys" = all(map.keys().clone()), list.keys();
    "IntMap::values" = all(map.values().clone()), list.values();
    "IntMap::values_mut" = map.values_mut().for_each(|it| *it += 1), list.each(|_, it| *it += 1);
    "IntMap::values_mut, some" = map.values_mut().skip(2).step_by(3).take(4).for_each(|it| *it = 0), list.pairs.iter_mut().skip(2).step_by(3).take(4).for_each(|it| it.1 = 0);
    "IntMap::into_iter" = all(take(map)), list.taken();
    "IntMap::into_iter, five" = all(take(map).into_iter().take(5)), all(list.taken().into_iter().take(5));
    "IntMap::into_keys" = all(take(map).into_keys()), firsts(list.taken());
    "IntMap::into_values" = all(take(map).into_values()), all(list.taken().into_iter().map(|it| it.1));
    "IntMap's Debug" = _ = format!("{map:?} {:?} {:?} {:?}", map.iter(), map.keys(), map.values()), ();
}

calls! { SET_ON_KEY: [Call<Set>], |set, list, key|
    "IntSet::get" = set.get(key), list.find(key).map(|_| key);
    "IntSet::contains" = set.contains(key), list.find(key).is_some();
    "IntSet::insert" = set.insert(key), list.add(key, 0);
    "IntSet::try_insert" = set.try_insert(key), list.add(key, 0);
    "IntSet::extend by references" = set.extend([&key]), list.add_all([key].into_iter());
    "IntSet::replace" = set.replace(key), replaced(list, key);
    "IntSet::try_replace" = set.try_replace(key), replaced(list, key);
    "IntSet::remove" = set.remove(key), list.remove(key).is_some();
    "IntSet::take" = set.take(key), list.remove(key).map(|_| key);
}

calls! { SET_ON_ALL: [Call<Set>], |set, list, key|
    "IntSet::new" = *set = Set::new(), *list = List::new(4);
    "IntSet::try_new" = *set = Set::try_new().unwrap(), *list = List::new(4);
    "IntSet::default" = *set = Set::default(), *list = List::new(4);
    "IntSet::with_capacity" = *set = Set::with_capacity(size(key)), *list = List::new(size(key));
    "IntSet::try_with_capacity" = *set = Set::try_with_capacity(size(key)).unwrap(), *list = List::new(size(key));
    "IntSet::with_room_for" = *set = Set::with_room_for(size(key)), *list = List::new(slots_for(size(key), 909));
    "IntSet::try_with_room_for" = *set = Set::try_with_room_for(size(key)).unwrap(), *list = List::new(slots_for(size(key), 909));
    "IntSet::from_iter" = *set = some(key).collect(), *list = List::of_set(some(key));
    "IntSet::try_from_iter" = *set = Set::try_from_iter(some(key)).unwrap(), *list = List::of_set(some(key));
    "IntSet::from an array" = *set = Set::from(NUMBERS.map(Key)), *list = List::of_set(NUMBERS.into_iter().map(Key));
    "IntSet::clone" = *set = set.clone(), ();
    "IntSet::try_clone" = *set = set.try_clone().unwrap(), ();
    "IntSet::clone_from" = set.clone_from(&some(key).collect()), list.copy(List::of_set(some(key)), add);
    "IntSet::extend" = set.extend(some(key)), list.add_all(some(key));
    "IntSet::try_extend" = set.try_extend(some(key)), list.add_all(some(key));
    "IntSet::len" = set.len(), list.pairs.len();
    "IntSet::is_empty" = set.is_empty(), list.pairs.is_empty();
    "IntSet::capacity" = set.capacity(), list.slots;
    "IntSet::load" = set.load(), list.load();
    "IntSet::get_load_factor" = set.get_load_factor(), list.factor as f32 / 1000.;
    "IntSet::load_factor_thousandths" = set.load_factor_thousandths(), list.factor;
    "IntSet::set_load_factor" = set.set_load_factor(factor_of_floats(key)), list.meet(factor(key));
    "IntSet::try_set_load_factor" = set.try_set_load_factor(factor_of_floats(key)), list.meet(factor(key));
    "IntSet::try_set_load_factor_thousandths" = set.try_set_load_factor_thousandths(30 + size(key)), list.meet(30 + size(key));
    "IntSet::reserve" = set.reserve(size(key)), list.reserve(size(key));
    "IntSet::try_reserve" = set.try_reserve(9 * size(key)), list.reserve(9 * size(key));
    "IntSet::reserve_members" = set.reserve_members(size(key)), list.reserve_pairs(size(key));
    "IntSet::try_reserve_members" = set.try_reserve_members(9 * size(key)), list.reserve_pairs(9 * size(key));
    "IntSet::reserve_insertions" = set.reserve_insertions(size(key)), list.reserve_pairs(size(key));
    "IntSet::try_reserve_insertions" = set.try_reserve_insertions(9 * size(key)), list.reserve_pairs(9 * size(key));
    "IntSet::shrink_to" = set.shrink_to(size(key)), list.shrink_to(size(key), add);
    "IntSet::try_shrink_to" = set.try_shrink_to(size(key)), list.shrink_to(size(key), add);
    "IntSet::shrink_to_fit" = set.shrink_to_fit(), list.shrink_to(0, add);
    "IntSet::try_shrink_to_fit" = set.try_shrink_to_fit(), list.shrink_to(0, add);
    "IntSet::clear" = set.clear(), list.pairs.clear();
    "IntSet::retain" = set.retain(|it| it.0 % 3 > 0), list.pairs.retain(|it| it.0 % 3 > 0);
    "IntSet::extract_if" = all(set.extract_if(|it| it.0 % 3 > 0)), firsts(list.extract(usize::MAX, |it, _| it % 3 > 0));
    "IntSet::extract_if, two" = all(set.extract_if(|it| it.0 % 3 > 0).take(2)), firsts(list.extract(2, |it, _| it % 3 > 0));
    "IntSet::drain" = all(set.drain()), firsts(list.drain(usize::MAX));
    "IntSet::drain, five" = all(set.drain().take(5)), firsts(list.drain(5));
    "IntSet::iter" = all(set.iter().clone()), list.keys();
    "IntSet::iter by a loop" = all(&*set), list.keys();
    "IntSet::into_iter" = all(take(set)), firsts(list.taken());
    "IntSet's Debug" = _ = format!("{set:?} {:?}", set.iter()), ();
}

calls! { ON_SETS: [Both], |one, one, other|
    "IntSet::difference" = all(one.difference(other)), one.difference(other);
    "IntSet::intersection" = all(one.intersection(other)), one.intersection(other);
    "IntSet::union" = all(one.union(other)), one.union(other);
    "IntSet::symmetric_difference" = all(one.symmetric_difference(other)), one.symmetric_difference(other);
    "Difference's Debug" = _ = format!("{:?}", one.difference(other).clone()), _ = one.difference(other);
    "Intersection's Debug" = _ = format!("{:?}", one.intersection(other).clone()), _ = one.intersection(other);
    "Union's Debug" = _ = format!("{:?}", one.union(other).clone()), _ = one.union(other);
    "SymmetricDifference's Debug" = _ = format!("{:?}", one.symmetric_difference(other).clone()), _ = one.symmetric_difference(other);
    "IntSet - IntSet" = all(one - other), one.made(one.difference(other), one.pairs.len().saturating_sub(other.pairs.len()));
    "IntSet & IntSet" = all(one & other), one.made(one.intersection(other), 0);
    "IntSet | IntSet" = all(one | other), one.made(one.union(other), one.pairs.len() + other.pairs.len());
    "IntSet ^ IntSet" = all(one ^ other), one.made(one.symmetric_difference(other), one.pairs.len().abs_diff(other.pairs.len()));
    "IntSet::is_subset" = one.is_subset(other), one.is_subset(other);
    "IntSet::is_superset" = one.is_superset(other), other.is_subset(one);
    "IntSet::is_disjoint" = one.is_disjoint(other), one.is_disjoint(other);
    "IntSet == IntSet" = one == other, one.is_equal(other);
}
