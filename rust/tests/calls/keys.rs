//! Each type of keys beside std's maps and sets, and a type of the program's own.
use self::declared::{Named, Side};
use crate::random::Random;
use intmap_proved::{IntKey, IntMap, IntSet, check_keys, int_key, scramble};
use std::cell::Cell;
use std::collections::{HashMap, HashSet};
use std::fmt::Debug;
use std::hash::Hash;
use std::net::Ipv4Addr;
use std::num::{
    NonZeroI8, NonZeroI16, NonZeroI32, NonZeroI64, NonZeroIsize, NonZeroU8, NonZeroU16, NonZeroU32,
    NonZeroU64, NonZeroUsize, Saturating, Wrapping,
};

const CALLS: u64 = 20_000;

struct Beside<K: IntKey> {
    map: IntMap<K, u64>,
    plain_map: HashMap<K, u64>,
    set: IntSet<K>,
    plain_set: HashSet<K>,
}

impl<K: IntKey + Hash + Debug> Beside<K> {
    fn call(&mut self, key: K, call: u64, value: u64) {
        match call {
            0..3 => {
                assert_eq!(self.map.insert(key, value), self.plain_map.insert(key, value));
                assert_eq!(self.set.insert(key), self.plain_set.insert(key));
            }
            3 => {
                assert_eq!(self.map.remove_entry(key), self.plain_map.remove_entry(&key));
                assert_eq!(self.set.remove(key), self.plain_set.remove(&key));
            }
            4 => {
                *self.map.entry(key).or_default() += 1;
                *self.plain_map.entry(key).or_default() += 1;
            }
            5 => assert_eq!(self.map.get_key_value(key), self.plain_map.get_key_value(&key)),
            _ => {
                assert_eq!(self.map.get(key), self.plain_map.get(&key), "{key:?}");
                assert_eq!(self.set.contains(key), self.plain_set.contains(&key), "{key:?}");
            }
        }
    }

    fn compare(&self, name: &str) {
        assert_eq!((self.map.len(), self.set.len()), (self.plain_map.len(), self.plain_set.len()));
        assert!(self.map.iter().all(|(key, it)| self.plain_map.get(key) == Some(it)), "{name}");
        assert!(self.set.iter().all(|key| self.plain_set.contains(key)), "{name}");
        assert!(self.map.assert_count(), "{name}");
    }
}

/// Random calls on a type of keys, made from 64 bits by `key_of`.
fn beside_std<K: IntKey + Hash + Debug>(name: &str, key_of: fn(u64) -> K) {
    let mut random = Random(name.len() as u64);
    let mut beside = Beside {
        map: IntMap::new(),
        plain_map: HashMap::new(),
        set: IntSet::new(),
        plain_set: HashSet::new(),
    };
    for value in 0..CALLS {
        // near zero, or near the end of the type
        let near = random.below(300);
        let key = key_of(if random.below(2) == 0 { near } else { !near });
        beside.call(key, random.below(8), value);
        if value % 1000 == 0 {
            beside.compare(name);
        }
    }
    beside.compare(name);
}

macro_rules! beside_std {
    ($($key:ty)*) => { $(
        beside_std::<$key>(stringify!($key), |bits| bits as $key);
        beside_std::<Wrapping<$key>>(stringify!(Wrapping<$key>), |bits| Wrapping(bits as $key));
        beside_std::<Saturating<$key>>(stringify!(Saturating<$key>), |bits| Saturating(bits as $key));
    )* };
}

macro_rules! nonzero_beside_std {
    ($($key:ident)*) => { $(
        beside_std::<$key>(stringify!($key), |bits| $key::new(bits as _).unwrap_or($key::MAX));
    )* };
}

/// A code point near 0 for a number near 0, and one near the greatest for the others.
fn char_of(bits: u64) -> char {
    let last = char::MAX as u64;
    let point = if bits < last { bits } else { last - !bits };
    char::from_u32(point as u32).expect("no surrogate is so near to either end")
}

#[test]
fn each_type_of_keys_returns_what_std_returns() {
    beside_std!(u8 u16 u32 u64 usize i8 i16 i32 i64 isize);
    nonzero_beside_std! {
        NonZeroU8 NonZeroU16 NonZeroU32 NonZeroU64 NonZeroUsize
        NonZeroI8 NonZeroI16 NonZeroI32 NonZeroI64 NonZeroIsize
    }
    beside_std("bool", |bits| bits & 1 == 1);
    beside_std("char", char_of);
    beside_std("an address", |bits| Ipv4Addr::from_bits(bits as u32));
}

/// Checks that no two of these keys have one number.
fn distinct<K: IntKey>(name: &str, keys: impl Iterator<Item = K>) {
    let mut numbers: Vec<u64> = keys.map(|it| it.number()).collect();
    let all = numbers.len();
    numbers.sort_unstable();
    numbers.dedup();
    assert_eq!(numbers.len(), all, "{name}");
}

#[test]
fn each_key_has_a_number_of_its_own() {
    distinct("bool", [false, true].into_iter());
    distinct("char", '\0'..=char::MAX);
    distinct("i8", i8::MIN..=i8::MAX);
    distinct("i16", i16::MIN..=i16::MAX);
    distinct("Wrapping", (i8::MIN..=i8::MAX).map(Wrapping));
    distinct("NonZeroI16", (i16::MIN..=i16::MAX).filter_map(NonZeroI16::new));
    distinct("NonZeroU16", (1..=u16::MAX).filter_map(NonZeroU16::new));
    let bytes = [0, 1, 2, 127, 128, 255];
    let addresses = bytes.map(|a| bytes.map(|b| bytes.map(|c| bytes.map(|d| [a, b, c, d]))));
    let addresses = addresses.into_iter().flatten().flatten().flatten();
    distinct("an address", addresses.map(Ipv4Addr::from));
    distinct("a ticket", (0..1000).map(Ticket));
    distinct("a suit", SUITS.into_iter());
    distinct("a level", LEVELS.into_iter());
    distinct("a side", [Side::Left, Side::Right].into_iter());
}

#[test]
fn keys_have_these_numbers() {
    let most = u64::MAX;
    let numbers = [
        ("bool", true.number(), 1),
        ("char", char::MAX.number(), 0x10_FFFF),
        ("NonZeroU8", NonZeroU8::MAX.number(), 255),
        ("NonZeroU64", NonZeroU64::MAX.number(), most),
        ("NonZeroI8", NonZeroI8::MIN.number(), most - 127),
        ("NonZeroIsize", NonZeroIsize::MIN.number(), 1 << 63),
        ("Wrapping<u32>", Wrapping(u32::MAX).number(), 0xFFFF_FFFF),
        ("Wrapping<i16>", Wrapping(-2i16).number(), most - 1),
        ("an address", Ipv4Addr::new(1, 2, 3, 4).number(), 0x0102_0304),
        ("a day", Day(-1).number(), most),
        ("the first variant", Suit::Clubs.number(), 0),
        ("the last variant", Suit::Spades.number(), 3),
        ("the least discriminant", Level::Least.number(), most - 32_767),
        ("a negative discriminant", Level::Low.number(), most),
        ("a discriminant", Level::High.number(), 300),
        ("the next discriminant", Level::Higher.number(), 301),
        ("a named field", Named { id: -2 }.number(), most - 1),
        ("a variant of an enum from elsewhere", Side::Right.number(), 5),
    ];
    for (name, number, wanted) in numbers {
        assert_eq!(number, wanted, "{name}");
    }
}

int_key! {
    /// Declared by the macro, with more derived traits.
    #[derive(Debug, Hash)]
    pub struct Ticket(u32);

    #[derive(Debug, Hash)]
    struct Day(pub i16);
}

int_key! {
    /// With a default, and with numbers that count up from 0.
    #[derive(Debug, Default, Hash)]
    enum Suit {
        Clubs,
        #[default]
        Diamonds,
        Hearts,
        Spades,
    }

    #[derive(Debug, Hash)]
    #[repr(i16)]
    pub enum Level {
        Least = i16::MIN,
        Low = -1,
        High = 300,
        /// One more than the variant before.
        Higher,
    }
}

mod declared {
    #[derive(Clone, Copy, PartialEq, Eq, Hash, Debug)]
    pub struct Named {
        pub id: i32,
    }

    #[derive(Clone, Copy, PartialEq, Eq, Hash, Debug)]
    pub enum Side {
        Left = 2,
        Right = 5,
    }
}

int_key! {
    for declared::Named by |named| named.id;
    for declared::Side by |side| *side as u8;
}

const SUITS: [Suit; 4] = [Suit::Clubs, Suit::Diamonds, Suit::Hearts, Suit::Spades];
const LEVELS: [Level; 4] = [Level::Least, Level::Low, Level::High, Level::Higher];

const SECRET: u64 = 0x0123_4567_89AB_CDEF;

int_key! {
    #[derive(Debug, Hash)]
    struct Visitor(u64) scrambled by SECRET;

    #[derive(Debug, Hash)]
    struct Hour(NonZeroI8) scrambled by SECRET + 1;
}

#[test]
fn declared_types_are_keys() {
    beside_std("a ticket", |bits| Ticket(bits as u32));
    beside_std("a day", |bits| Day(bits as i16));
    beside_std("a visitor", Visitor);
    beside_std("an hour", |bits| Hour(NonZeroI8::new(bits as i8).unwrap_or(NonZeroI8::MAX)));
    beside_std("a suit", |bits| SUITS[bits as usize % 4]);
    beside_std("a level", |bits| LEVELS[bits as usize % 4]);
    beside_std("a named field", |bits| Named { id: bits as i32 });
    beside_std("a side", |bits| if bits % 2 == 0 { Side::Left } else { Side::Right });
    assert_eq!(Suit::default(), Suit::Diamonds, "the attribute of a variant stays");
}

/// The number that a secret scrambled to this one.
fn unscrambled(scrambled: u64, secret: u64) -> u64 {
    let mut bits = scrambled ^ scrambled >> 31 ^ scrambled >> 62;
    bits = bits.wrapping_mul(0x3196_42B2_D24D_8EC3);
    bits = (bits ^ bits >> 27 ^ bits >> 54).wrapping_mul(0x96DE_1B17_3F11_9089);
    bits ^ bits >> 30 ^ bits >> 60 ^ secret
}

#[test]
fn each_scrambled_number_comes_from_one_number() {
    let mut random = Random(13);
    for secret in [0, 1, u64::MAX, SECRET] {
        for number in (0..1000).chain((0..1000).map(|it| it << 32)).chain([u64::MAX]) {
            let number = number ^ random.next() & random.below(2).wrapping_neg();
            assert_eq!(unscrambled(scramble(number, secret), secret), number, "by {secret}");
            let key = Visitor(number);
            assert_eq!(unscrambled(key.number(), SECRET), number);
        }
    }
    assert_eq!(scramble(1, 0), 0x5692_161D_100B_05E5, "as SplitMix64 has it");
}

#[test]
fn scrambled_keys_with_equal_low_bits_have_slots_of_their_own() {
    for zeros in [12, 32, 44] {
        let keys = (0..1000).map(|key| key << zeros);
        let plain: IntSet<u64> = keys.clone().collect();
        let scrambled: IntMap<Visitor, ()> = keys.map(|key| (Visitor(key), ())).collect();
        let largest = scrambled.collisions().keys().copied().max();
        assert!(largest < Some(10), "{largest:?} keys share a slot, {zeros} zeros");
        assert_eq!(plain.len(), scrambled.len());
    }
}

#[test]
fn the_ends_of_each_type_are_keys() {
    macro_rules! ends {
        ($($key:ty)*) => { $(
            let mut map = IntMap::from([(<$key>::MIN, 'a'), (<$key>::MAX, 'b')]);
            map.insert(0, 'c');
            assert_eq!((map[<$key>::MAX], map[0]), ('b', 'c'), stringify!($key));
            assert_eq!(map.len(), if <$key>::MIN == 0 { 2 } else { 3 }, stringify!($key));
        )* };
    }
    ends!(u8 u16 u32 u64 usize i8 i16 i32 i64 isize);
}

/// A struct of a program, which names no bound of its keys.
struct Stock<K, V> {
    amounts: IntMap<K, V>,
    sold_out: IntSet<K>,
}

#[test]
fn a_struct_has_a_map_without_a_bound() {
    let stock = Stock { amounts: IntMap::from([(21_u64, 7)]), sold_out: IntSet::from([22]) };
    let kept: Option<Stock<u64, u32>> = Some(stock).filter(|it| !it.amounts.is_empty());
    assert!(kept.is_some_and(|it| it.sold_out.contains(22)));
}

/// Keys whose numbers and whose `==` a function makes of two numbers.
#[derive(Clone, Copy, Debug)]
struct Made {
    one: u64,
    other: u64,
    number: fn(&Made) -> u64,
    same: fn(&Made, &Made) -> bool,
}

impl PartialEq for Made {
    fn eq(&self, other: &Made) -> bool {
        (self.same)(self, other)
    }
}

impl Eq for Made {}

impl IntKey for Made {
    fn number(&self) -> u64 {
        (self.number)(self)
    }
}

thread_local!(static READS: Cell<u64> = const { Cell::new(0) });

/// The two keys that break a rule, of some that these functions make, each by its two numbers.
fn broken(
    number: fn(&Made) -> u64,
    same: fn(&Made, &Made) -> bool,
) -> Option<((u64, u64), (u64, u64))> {
    let numbers = (0..9).flat_map(|one| (0..9).map(move |other| (one, other)));
    let keys: Vec<Made> = numbers.map(|(one, other)| Made { one, other, number, same }).collect();
    let pair = |key: Made| (key.one, key.other);
    check_keys(&keys).err().map(|(first, second)| (pair(first), pair(second)))
}

#[test]
fn keys_that_break_a_rule_are_told() {
    let same = |one: &Made, other: &Made| (one.one, one.other) == (other.one, other.other);
    let number = |key: &Made| key.one * 9 + key.other;
    let changing = |_: &Made| READS.replace(READS.get() + 1);
    assert_eq!(broken(number, same), None);
    assert_eq!(broken(|key| key.one * 8 + key.other, same), Some(((0, 8), (1, 0))), "shared");
    assert_eq!(broken(number, |one, two| one.other == two.other), Some(((0, 0), (1, 0))), "equal");
    assert_eq!(broken(number, |_, _| false), Some(((0, 0), (0, 0))), "not equal to itself");
    assert_eq!(broken(changing, same), Some(((0, 0), (0, 0))), "a number that changes");
    // the same of a key that isn't the first of the slice
    let same_but_one = |one: &Made, other: &Made| {
        (one.one, one.other) == (other.one, other.other) && (one.one, one.other) != (0, 5)
    };
    assert_eq!(broken(number, same_but_one), Some(((0, 5), (0, 5))), "not equal to itself");
    let changing_one = |key: &Made| match (key.one, key.other) {
        (0, 5) => 100 + READS.replace(READS.get() + 1),
        (one, other) => one * 9 + other,
    };
    assert_eq!(broken(changing_one, same), Some(((0, 5), (0, 5))), "a number that changes");
}

/// A place on a board, which is 1000 places wide.
#[derive(Clone, Copy, PartialEq, Eq, Hash, Debug)]
struct Place {
    row: u16,
    column: u16,
}

impl IntKey for Place {
    fn number(&self) -> u64 {
        u64::from(self.row) * 1000 + u64::from(self.column)
    }
}

#[test]
fn a_type_of_the_program_is_a_key() {
    beside_std("a place", |bits| Place { row: bits as u8 as u16, column: (bits >> 60) as u16 });
    let mut board = IntMap::from([(Place { row: 1, column: 2 }, "rook")]);
    board.entry(Place { row: 0, column: 999 }).or_insert("king");
    assert_eq!(board[Place { row: 1, column: 2 }], "rook");
    assert!(board.keys().any(|it| it.column == 999) && board.len() == 2);
}

#[test]
fn pairs_are_inserted_by_value_and_by_reference() {
    let source: IntMap<i32, u8> = (-5..5).map(|key| (key, key as u8)).collect();
    let mut copy = IntMap::from([(7, 7)]);
    copy.extend(&source);
    copy.extend([(-5, 0), (8, 8)]);
    let plain: HashMap<i32, u8> =
        (-4..5).map(|key| (key, key as u8)).chain([(7, 7), (-5, 0), (8, 8)]).collect();
    assert_eq!(copy.len(), plain.len());
    assert!(plain.iter().all(|(key, value)| copy.get(*key) == Some(value)), "{copy:?}");
}

#[test]
#[should_panic]
fn an_index_of_an_absent_key_panics() {
    let map = IntMap::from([(1_u64, 'a')]);
    let _ = map[2];
}
