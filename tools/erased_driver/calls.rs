//! One random call, and all that it returns as numbers. Both maps share this text: two modules have
//! it, each with the names of its own crate.
use super::{Entry, IntMap};
use crate::given::{Call, Given};
use crate::value::Value;

/// What a call returned, as numbers.
#[derive(Default)]
struct Said(Vec<u64>);

impl Said {
    fn number(&mut self, number: impl Into<u64>) {
        self.0.push(number.into());
    }

    fn size(&mut self, size: usize) {
        self.0.push(size as u64);
    }

    fn pair(&mut self, key: u64, value: u64) {
        self.0.extend([key, value]);
    }

    fn value<V: Value>(&mut self, value: Option<&V>) {
        self.0.extend(value.map(V::number));
        self.number(value.is_some());
    }

    fn text(&mut self, text: &str) {
        self.0.extend(text.bytes().map(u64::from));
    }

    /// The items of an iterator, of which at most some are taken.
    fn items<I: Iterator>(&mut self, items: I, limit: usize, number: impl Fn(I::Item) -> u64) {
        self.0.extend(items.take(limit).map(number));
    }
}

/// The rest of an iterator behind some items, which are dropped. It doesn't say how many are left:
/// that is where the two crates differ, and with it the capacity of a map that is collected.
fn behind<I: Iterator>(mut items: I, taken: usize) -> impl Iterator<Item = I::Item> {
    items.by_ref().take(taken).for_each(drop);
    std::iter::from_fn(move || items.next())
}

/// Makes a call. Returns what it returned, and the length and the capacity behind it.
pub fn made<V: Value>(map: &mut IntMap<V>, given: &Given) -> Vec<u64> {
    let mut said = Said::default();
    match given.call {
        Call::Insert
        | Call::InsertChecked
        | Call::Get
        | Call::GetMut
        | Call::Remove
        | Call::ContainsKey => on_a_key(map, given, &mut said),
        Call::EntryInsert
        | Call::EntryGet
        | Call::EntryGetMut
        | Call::EntryIntoMut
        | Call::EntryRemove => by_an_entry(map, given, &mut said),
        Call::Iter
        | Call::IterMut
        | Call::Keys
        | Call::Values
        | Call::ValuesMut
        | Call::Drain
        | Call::IntoIter
        | Call::Retain => on_all_pairs(map, given, &mut said),
        Call::New
        | Call::Default
        | Call::WithCapacity
        | Call::Clone
        | Call::Equal
        | Call::Extend
        | Call::Collect
        | Call::CollectAgain => on_several_maps(map, given, &mut said),
        _ => on_the_size(map, given, &mut said),
    }
    said.size(map.len());
    said.size(map.capacity());
    said.0
}

fn on_a_key<V: Value>(map: &mut IntMap<V>, given: &Given, said: &mut Said) {
    let (key, number) = (given.key, given.number);
    match given.call {
        Call::Insert => said.value(map.insert(key, V::of(number)).as_ref()),
        Call::InsertChecked => said.number(map.insert_checked(key, V::of(number))),
        Call::Get => said.value(map.get(key)),
        Call::GetMut => {
            if let Some(value) = map.get_mut(key) {
                said.number(value.number());
                *value = V::of(number);
            }
        }
        Call::Remove => said.value(map.remove(key).as_ref()),
        _ => said.number(map.contains_key(key)),
    }
}

fn by_an_entry<V: Value>(map: &mut IntMap<V>, given: &Given, said: &mut Said) {
    let value = V::of(given.number);
    match (map.entry(given.key), given.call) {
        (Entry::Occupied(mut entry), Call::EntryInsert) => {
            said.value(Some(&entry.insert(value)));
            said.value(Some(entry.get()));
        }
        (Entry::Occupied(entry), Call::EntryGet) => said.value(Some(entry.get())),
        (Entry::Occupied(mut entry), Call::EntryGetMut) => {
            said.value(Some(&*entry.get_mut()));
            *entry.get_mut() = value;
        }
        (Entry::Occupied(entry), Call::EntryIntoMut) => {
            let place = entry.into_mut();
            said.value(Some(&*place));
            *place = value;
        }
        (Entry::Occupied(entry), _) => said.value(Some(&entry.remove())),
        (Entry::Vacant(entry), Call::EntryInsert | Call::EntryIntoMut) => {
            let place = entry.insert(value);
            said.value(Some(&*place));
            *place = V::of(!given.number);
        }
        (Entry::Vacant(_), _) => said.value(None::<&V>),
    }
}

/// Calls that go through the pairs. One in two goes through all of them.
fn on_all_pairs<V: Value>(map: &mut IntMap<V>, given: &Given, said: &mut Said) {
    let number = given.number;
    let limit = if number.is_multiple_of(2) { usize::MAX } else { (number >> 8) as usize % 100 };
    let write = |value: &mut V| {
        let before = value.number();
        *value = V::of(number ^ before);
        before
    };
    match given.call {
        Call::Iter => said.items(map.iter(), limit, |(key, value)| key ^ value.number()),
        Call::IterMut => said.items(map.iter_mut(), limit, |(key, value)| key ^ write(value)),
        Call::Keys => said.items(map.keys(), limit, |key| *key),
        Call::Values => said.items(map.values(), limit, V::number),
        Call::ValuesMut => said.items(map.values_mut(), limit, write),
        // one that ends early leaves other pairs in each of the crates
        Call::Drain => said.items(map.drain(), usize::MAX, |(key, value)| key ^ value.number()),
        Call::IntoIter => {
            let items = std::mem::take(map).into_iter();
            said.items(items, limit, |(key, value)| key ^ value.number());
        }
        _ => map.retain(|key, value| {
            said.pair(key, value.number());
            !(key ^ value.number() ^ number).is_multiple_of(4)
        }),
    }
}

fn on_several_maps<V: Value>(map: &mut IntMap<V>, given: &Given, said: &mut Said) {
    let Given { key, number, .. } = *given;
    let pairs = given.pairs.iter().map(|(key, number)| (*key, V::of(*number)));
    match given.call {
        Call::New => *map = IntMap::new(),
        Call::Default => *map = IntMap::default(),
        Call::WithCapacity => *map = IntMap::with_capacity(number as usize % 600),
        Call::Clone => *map = map.clone(),
        Call::Equal => {
            let mut other = map.clone();
            said.number(*map == other);
            other.insert(key, V::of(number));
            said.number(*map == other);
            other.remove(key);
            said.number(*map == other);
            said.number(other == *map);
        }
        Call::Extend => map.extend(pairs),
        // the iterator says how many items there are
        Call::Collect => *map = pairs.collect(),
        _ => collect_again(map, given),
    }
}

/// Collects a map from an iterator of a map, from its begin or behind some of its items.
fn collect_again<V: Value>(map: &mut IntMap<V>, given: &Given) {
    let taken = if given.number.is_multiple_of(2) { 0 } else { (given.number >> 8) as usize % 50 };
    let pairs = given.pairs.iter().map(|(key, number)| (*key, V::of(*number)));
    *map = match given.key % 5 {
        0 => behind(std::mem::take(map).into_iter(), taken).collect(),
        1 => behind(std::mem::take(map).into_iter(), taken).chain(pairs).collect(),
        2 => behind(map.drain(), taken).collect(),
        3 => behind(map.iter(), taken).map(|(key, value)| (*key, value.clone())).collect(),
        _ => {
            let values = behind(map.values(), taken).cloned();
            behind(map.keys(), taken).copied().zip(values).collect()
        }
    };
}

fn on_the_size<V: Value>(map: &mut IntMap<V>, given: &Given, said: &mut Said) {
    match given.call {
        Call::SetLoadFactor => map.set_load_factor(given.load_factor()),
        Call::GetLoadFactor => said.number(map.get_load_factor().to_bits()),
        Call::Reserve => map.reserve(given.number as usize % 600),
        Call::Clear => map.clear(),
        Call::IsEmpty => said.number(map.is_empty()),
        Call::Len => said.size(map.len()),
        Call::Load => said.number(map.load()),
        Call::LoadRate => said.number(map.load_rate().to_bits()),
        Call::Capacity => said.size(map.capacity()),
        Call::AssertCount => said.number(map.assert_count()),
        Call::Collisions => {
            map.collisions().iter().for_each(|(pairs, slots)| said.pair(*pairs, *slots));
        }
        Call::Debug => said.text(&format!("{map:?}")),
        call => unreachable!("{call:?} is made elsewhere"),
    }
}

/// All that a map tells of itself, and its clone too: its figures, its pairs in order, and its text.
pub fn whole<V: Value>(map: &IntMap<V>) -> Vec<u64> {
    let mut said = Said::default();
    let clone = map.clone();
    for map in [map, &clone] {
        said.number(map.load());
        said.number(map.load_rate().to_bits());
        said.number(map.get_load_factor().to_bits());
        said.number(map.assert_count());
        said.number(map.is_empty());
        said.size(map.len());
        said.size(map.capacity());
        map.iter().for_each(|(key, value)| said.pair(*key, value.number()));
    }
    map.collisions().iter().for_each(|(pairs, slots)| said.pair(*pairs, *slots));
    said.number(*map == clone);
    // the text of a large map takes long, and has nothing that its pairs don't have
    if map.len() < 100 {
        said.text(&format!("{map:?}"));
    }
    said.0
}
