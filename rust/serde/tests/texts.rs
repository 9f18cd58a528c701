//! Maps and sets as JSON and back.
#![forbid(unsafe_code)]

use intmap_proved::{IntKey, IntMap, IntSet, int_key, original};
use intmap_proved_serde::Serde;
use serde::{Deserialize, Serialize};
use serde_json::{from_str, to_string};
use std::num::NonZeroU32;

#[derive(Serialize, Deserialize, PartialEq, Debug)]
struct Stock<'a> {
    #[serde(borrow, with = "intmap_proved_serde")]
    names: IntMap<u64, &'a str>,
    #[serde(with = "intmap_proved_serde")]
    sold_out: IntSet<i8>,
    more: Vec<Serde<IntMap<u32, Serde<IntSet<u16>>>>>,
}

#[test]
fn fields_and_nested_maps_have_the_text_that_they_are_read_from() {
    let text = r#"{"names":{"4":"a","7":"b"},"sold_out":[2,-3],"more":[{},{"8":[5],"16":[]}]}"#;
    let stock: Stock<'_> = from_str(text).expect("it is a stock");
    assert_eq!((stock.names[4], stock.names[7], stock.names.len()), ("a", "b", 2));
    assert_eq!(stock.sold_out, IntSet::from([-3, 2]));
    assert_eq!(stock.more[1].0[8].0, IntSet::from([5]));
    assert_eq!(to_string(&stock).expect("it has a text"), text);
}

#[test]
fn a_map_has_its_pairs_in_iteration_order() {
    let mut map: IntMap<u64, u64> = (0..100).map(|key| (key * 37, key)).collect();
    map.remove(37 * 50);
    let pairs: Vec<String> = map.iter().map(|(key, value)| format!("\"{key}\":{value}")).collect();
    let text = to_string(&Serde(&map)).expect("it has a text");
    assert_eq!(text, format!("{{{}}}", pairs.join(",")));
    let Serde(again) = from_str::<Serde<IntMap<u64, u64>>>(&text).expect("it is a map");
    assert_eq!(again, map);
}

/// What Rust's crate `intmap` 2.0.0 writes for a map that it read from a text.
const TEXTS_OF_THE_ORIGINAL: [(&str, &str); 4] = [
    ("{}", "{}"),
    (r#"{"3":0,"2":1,"1":2,"0":3}"#, r#"{"0":3,"2":1,"1":2,"3":0}"#),
    (r#"{"0":0,"4":1,"8":2,"12":3,"5":4,"0":5}"#, r#"{"8":2,"0":5,"5":4,"4":1,"12":3}"#),
    (
        r#"{"9":0,"5":1,"1":2,"13":3,"18446744073709551615":4,"2":5,"6":6}"#,
        r#"{"5":1,"13":3,"2":5,"18446744073709551615":4,"9":0,"1":2,"6":6}"#,
    ),
];

#[test]
fn a_map_that_was_read_has_the_order_of_the_original() {
    for (read, written) in TEXTS_OF_THE_ORIGINAL {
        let map: Serde<IntMap<u64, u8>> = from_str(read).expect("it is a map");
        assert_eq!(to_string(&map).expect("it has a text"), written, "from {read}");
        let map: Serde<original::IntMap<u8>> = from_str(read).expect("it is a map");
        assert_eq!(to_string(&map).expect("it has a text"), written, "from {read} by that name");
    }
}

#[test]
fn the_last_value_of_a_key_stays() {
    let Serde(map) = from_str::<Serde<IntMap<u64, u8>>>(r#"{"1":1,"3":2,"1":3}"#).expect("a map");
    assert_eq!(map, IntMap::from([(1, 3), (3, 2)]));
    let Serde(set) = from_str::<Serde<IntSet<u64>>>("[1,3,1]").expect("a set");
    assert_eq!(set, IntSet::from([1, 3]));
}

#[derive(Clone, Copy, PartialEq, Eq, Serialize, Deserialize, Debug)]
struct Article(u16);

impl IntKey for Article {
    fn number(&self) -> u64 {
        self.0.into()
    }
}

int_key! {
    #[derive(Serialize, Deserialize, Debug)]
    struct Visitor(u64) scrambled by 0x0123_4567_89AB_CDEF;
}

#[test]
fn keys_of_a_stranger_have_slots_of_their_own_if_scrambled() {
    let pairs: Vec<String> = (0..1000_u64).map(|it| format!("\"{}\":true", it << 32)).collect();
    let text = format!("{{{}}}", pairs.join(","));
    let shared = from_str::<Serde<IntMap<u64, bool>>>(&text).expect("it is a map").0;
    assert_eq!(shared.load(), 1, "1000 keys share a slot");
    let scrambled = from_str::<Serde<IntMap<Visitor, bool>>>(&text).expect("it is a map").0;
    assert!(scrambled.load() > 500 && scrambled[Visitor(7 << 32)], "{}", scrambled.load());
}

/// Whether a map and a set with these two keys, the least and the greatest of their type, are equal
/// to those that their text is read as.
fn come_back<K>(keys: [K; 2])
where
    K: IntKey + Serialize + for<'de> Deserialize<'de> + std::fmt::Debug,
{
    let map = Serde(IntMap::from(keys.map(|key| (key, true))));
    let text = to_string(&map).expect("it has a text");
    assert_eq!(from_str::<Serde<IntMap<K, bool>>>(&text).expect("it is a map"), map, "{text}");
    let set = Serde(IntSet::from(keys));
    let text = to_string(&set).expect("it has a text");
    assert_eq!(from_str::<Serde<IntSet<K>>>(&text).expect("it is a set"), set, "{text}");
}

#[test]
fn each_type_of_keys_comes_back() {
    come_back([u8::MIN, u8::MAX]);
    come_back([u16::MIN, u16::MAX]);
    come_back([u32::MIN, u32::MAX]);
    come_back([u64::MIN, u64::MAX]);
    come_back([usize::MIN, usize::MAX]);
    come_back([i8::MIN, i8::MAX]);
    come_back([i16::MIN, i16::MAX]);
    come_back([i32::MIN, i32::MAX]);
    come_back([i64::MIN, i64::MAX]);
    come_back([isize::MIN, isize::MAX]);
    come_back([Article(0), Article(u16::MAX)]);
    come_back(['\0', char::MAX]);
    come_back([NonZeroU32::MIN, NonZeroU32::MAX]);
    come_back([Visitor(0), Visitor(u64::MAX)]);
}

#[test]
fn what_is_no_map_or_set_is_an_error() {
    let error = |text| {
        let read = from_str::<Serde<IntMap<u8, u8>>>(text);
        read.map(drop).expect_err(text).to_string()
    };
    assert!(error("[1]").contains("expected a map with integer keys"), "{}", error("[1]"));
    assert!(error(r#"{"256":1}"#).contains("256"), "{}", error(r#"{"256":1}"#));
    assert!(error(r#"{"1":1"#).contains("EOF"), "{}", error(r#"{"1":1"#));
    let error = from_str::<Serde<IntSet<u8>>>("{}").map(drop).expect_err("{}").to_string();
    assert!(error.contains("expected a sequence of integers"), "{error}");
}
