//! The types of keys: those that the proved text doesn't have, and a check of the rules of all.
use core::net::Ipv4Addr;
use core::num::{
    NonZeroI8, NonZeroI16, NonZeroI32, NonZeroI64, NonZeroIsize, NonZeroU8, NonZeroU16, NonZeroU32,
    NonZeroU64, NonZeroUsize, Saturating, Wrapping,
};

/// The types that can be keys: integers of up to 64 bits, also as `NonZero`, `Wrapping` and
/// `Saturating`, `char`, `bool`, `Ipv4Addr`, and types of your own.
///
/// A signed integer has the number of the equal `i64`, a `char` that of its code point, `false` 0
/// and `true` 1. The last byte of an address counts ones, the one before it 256, and so on, so the
/// addresses of a network differ in their low bits. What wraps a key has its number.
///
/// # Keys of your own
///
/// [`int_key!`](crate::int_key) makes keys of a struct with one field that is a key, and of an enum
/// without fields. Where it takes a number from you, or you implement this trait by hand, two keys
/// must be equal if and only if their numbers are, equal keys must be the same, with no field in
/// which they differ, and a key's number must never change.
/// Maps and sets compare numbers alone: they never call `==` of keys.
/// [`check_keys`](crate::check_keys) finds, in a test, keys that break a rule. If a type breaks
/// one, then in its maps lookups may miss, pairs may be lost, lengths may be wrong or wrap below 0,
/// and any call may panic or end the process, as for want of memory. There is still no undefined
/// behavior, and no value is dropped twice. If `number` panics, the map stays whole: the page of
/// the crate says what that means.
///
/// A place on a board of 256 columns:
///
/// ```
/// use intmap_proved::{IntKey, IntMap};
///
/// #[derive(Clone, Copy, PartialEq, Eq, Debug)]
/// struct Place {
///     row: u16,
///     column: u8,
/// }
///
/// impl IntKey for Place {
///     fn number(&self) -> u64 {
///         u64::from(self.row) * 256 + u64::from(self.column)
///     }
/// }
///
/// let rook = Place { row: 1, column: 2 };
/// assert_eq!(IntMap::from([(rook, "rook")]).get(rook), Some(&"rook"));
/// ```
///
/// # Keys that strangers choose
///
/// They may all share a slot. [`int_key!`](crate::int_key) scrambles their numbers by a secret. An
/// implementation by hand can return [`scramble`](crate::scramble) of its number, or `int_key!` can
/// wrap the type:
///
/// ```
/// use intmap_proved::{IntKey, IntMap, int_key, scramble};
/// # use std::hash::{BuildHasher, RandomState};
/// # use std::sync::LazyLock;
/// #
/// # static SECRET: LazyLock<u64> = LazyLock::new(|| RandomState::new().hash_one(0));
///
/// #[derive(Clone, Copy, PartialEq, Eq)]
/// struct Scrambled(u32, u32);
///
/// impl IntKey for Scrambled {
///     fn number(&self) -> u64 {
///         scramble(u64::from(self.0) << 32 | u64::from(self.1), *SECRET)
///     }
/// }
///
/// #[derive(Clone, Copy, PartialEq, Eq)]
/// struct Place(u32, u32);
///
/// impl IntKey for Place {
///     fn number(&self) -> u64 {
///         // without a wrapper, places of one column would share a slot
///         u64::from(self.0) << 32 | u64::from(self.1)
///     }
/// }
///
/// int_key! {
///     struct Wrapped(Place) scrambled by *SECRET;
/// }
///
/// assert_eq!(IntMap::from([(Scrambled(1, 2), 'a')])[Scrambled(1, 2)], 'a');
/// assert_eq!(IntMap::from([(Wrapped(Place(1, 2)), 'a')])[Wrapped(Place(1, 2))], 'a');
/// ```
///
/// # Numbers and slots
///
pub use crate::proved::map::IntKey;

/// Checks by some keys that their type keeps to the rules of [`IntKey`]: that two of them are equal
/// if and only if their numbers are, and that no number changes from one call to the next. It
/// doesn't see fields that `==` ignores. It is for tests of a type that implements the trait by
/// hand. The cost is *O*(*m*^2) for *m* keys.
///
/// # Errors
/// Two keys that break a rule. The second is the first of the slice that breaks one with a key
/// before it, or alone: then both are that key, whose number changes or which isn't equal to
/// itself.
///
/// ```
/// use intmap_proved::{IntKey, check_keys};
///
/// #[derive(Clone, Copy, PartialEq, Eq, Debug)]
/// struct Place(u16, u16);
///
/// impl IntKey for Place {
///     fn number(&self) -> u64 {
///         // too few columns
///         u64::from(self.0) * 100 + u64::from(self.1)
///     }
/// }
///
/// assert_eq!(check_keys(&[Place(0, 99), Place(1, 1)]), Ok(()));
/// assert_eq!(check_keys(&[Place(0, 101), Place(1, 1)]), Err((Place(0, 101), Place(1, 1))));
/// ```
pub fn check_keys<K: IntKey>(keys: &[K]) -> Result<(), (K, K)> {
    for (place, key) in keys.iter().enumerate() {
        let breaks = |other: &&K| (*other == key) != (other.number() == key.number());
        if let Some(other) = keys[..=place].iter().find(breaks) {
            return Err((*other, *key));
        }
    }
    Ok(())
}

/// Makes types keys, each by the number that it has.
macro_rules! keys {
    ($($($name:ident)+: |$key:ident| $number:expr;)*) => { $( $(
        impl IntKey for $name {
            #[inline(always)]
            fn number(&self) -> u64 {
                let $key = self;
                $number
            }
        }
    )+ )* };
}

keys! {
    i8 i16 isize: |key| *key as i64 as u64;
    char bool: |key| u64::from(*key);
    Ipv4Addr: |key| key.to_bits().number();
    NonZeroU8 NonZeroU16 NonZeroU32 NonZeroU64 NonZeroUsize: |key| key.get().number();
    NonZeroI8 NonZeroI16 NonZeroI32 NonZeroI64 NonZeroIsize: |key| key.get().number();
}

impl<K: IntKey> IntKey for Wrapping<K> {
    #[inline(always)]
    fn number(&self) -> u64 {
        self.0.number()
    }
}

impl<K: IntKey> IntKey for Saturating<K> {
    #[inline(always)]
    fn number(&self) -> u64 {
        self.0.number()
    }
}
