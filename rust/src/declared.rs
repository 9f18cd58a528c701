//! The macro that declares types of keys, and what it scrambles their numbers by.

/// Makes types keys: structs of one field and enums without fields, which it declares, and types
/// that are declared elsewhere. A call has one or more types of one of these kinds, without
/// generics.
///
/// A struct or an enum that it declares has `Clone`, `Copy`, `PartialEq` and `Eq`, so don't derive
/// these yourself. Derive others above it, such as `Debug`. Its attributes go to the type alone,
/// not to the implementation of [`IntKey`](crate::IntKey). So put no `cfg` on it: put the `cfg` on
/// the whole call of the macro.
///
/// # Structs of one field
///
/// The field is a key. It has no name, and the struct ends with `;`. A key has the number of its
/// field, so keys with equal numbers are equal.
///
/// ```
/// use intmap_proved::{IntMap, int_key};
///
/// int_key! {
///     /// The number of a ticket.
///     #[derive(Debug)]
///     pub struct Ticket(u32);
///
///     struct Day(pub i16);
/// }
///
/// let open = IntMap::from([(Ticket(7), Day(-1))]);
/// assert!(open[Ticket(7)] == Day(-1));
/// assert_eq!(format!("{:?}", open.keys()), "[Ticket(7)]");
/// ```
///
/// A second field would leave keys without numbers of their own:
///
/// ```compile_fail
/// intmap_proved::int_key! {
///     struct Place(u32, u32);
/// }
/// ```
///
/// # Enums without fields
///
/// A key's number is its discriminant: 0, 1, 2 and so on, unless the enum says another. A negative
/// one has the number that is 2^64 more. No two variants have one discriminant, so keys with equal
/// numbers are equal.
///
/// ```
/// use intmap_proved::{IntKey, IntMap, int_key};
///
/// int_key! {
///     #[derive(Debug)]
///     pub enum Coin {
///         Heads,
///         Tails,
///     }
///
///     #[repr(i8)]
///     enum Turn {
///         Left = -1,
///         Right = 1,
///     }
/// }
///
/// let mut tosses: IntMap<Coin, u32> = IntMap::new();
/// for side in [Coin::Tails, Coin::Heads, Coin::Tails] {
///     *tosses.entry(side).or_insert(0) += 1;
/// }
/// assert_eq!(format!("{tosses:?}"), "{Heads: 1, Tails: 2}");
/// assert_eq!([Turn::Left.number(), Turn::Right.number()], [u64::MAX, 1]);
/// ```
///
/// A variant with a field would stand for several keys, and a discriminant of more than 64 bits has
/// no number:
///
/// ```compile_fail
/// intmap_proved::int_key! {
///     enum Shape {
///         Circle(u32),
///         Point,
///     }
/// }
/// ```
///
/// ```compile_fail
/// intmap_proved::int_key! {
///     #[repr(u128)]
///     enum Wide {
///         Zero,
///         Large = 1 << 64,
///     }
/// }
/// ```
///
/// # Types that are declared elsewhere
///
/// Write `for TYPE by |key| NUMBER;`. `TYPE` is a type of your crate that is `Copy + Eq`. `NUMBER`
/// is an expression of any type of keys, and `key` in it a reference to the key, which gets the
/// expression's number. No two keys may get one number. The macro can't see to that:
/// [`check_keys`](crate::check_keys) tries some keys in a test, and [`IntKey`](crate::IntKey) says
/// what happens to keys that break the rule.
///
/// ```
/// use intmap_proved::{IntMap, check_keys, int_key};
///
/// mod board {
///     #[derive(Clone, Copy, PartialEq, Eq, Debug)]
///     pub struct Place {
///         pub row: u16,
///         pub column: u8,
///     }
/// }
/// use board::Place;
///
/// int_key! {
///     for Place by |place| u64::from(place.row) * 256 + u64::from(place.column);
/// }
///
/// let rook = Place { row: 1, column: 2 };
/// assert_eq!(IntMap::from([(rook, "rook")]).get(rook), Some(&"rook"));
/// assert_eq!(check_keys(&[rook, Place { row: 2, column: 1 }]), Ok(()));
/// ```
///
/// # Keys that strangers choose
///
/// Whoever chooses the keys can choose thousands of one slot, and then each call compares thousands
/// of keys. With `scrambled by` and a secret behind a struct, [`scramble`](crate::scramble) makes a
/// key's number of the secret and the number of the field. So the secret decides which keys share a
/// slot. The secret is an expression of the type `u64`, which is evaluated each time a key's number
/// is read. It must be the same number as long as there are maps with such keys, so take a `static`:
///
/// ```
/// use intmap_proved::{IntMap, int_key};
/// use std::hash::{BuildHasher, RandomState};
/// use std::sync::LazyLock;
///
/// static SECRET: LazyLock<u64> = LazyLock::new(|| RandomState::new().hash_one(0));
///
/// int_key! {
///     struct Visitor(u64) scrambled by *SECRET;
/// }
///
/// let mut visits: IntMap<Visitor, u32> = IntMap::new();
/// for number in [1 << 32, 2 << 32, 1 << 32] {
///     *visits.entry(Visitor(number)).or_insert(0) += 1;
/// }
/// assert_eq!(visits[Visitor(1 << 32)], 2);
/// ```
///
/// The order of iteration then depends on the secret. [`scramble`](crate::scramble) says what the
/// secret is worth.
///
/// A call reads the number of the key that it gets, and of each stored key that it compares. As a
/// map grows, it reads that of each pair. So scrambled ids that count up take the memory of random
/// keys, and more time. With 1,000 and 20,000 ids in shuffled order and a `LazyLock` as above,
/// look-ups of present ids took 1.8 to 2.4 times as long as those of random keys, and 4 to 7 times
/// as long as those of plain ids. Look-ups of absent ids took 1.0 to 1.5 times as long as those of
/// random keys, and insertions 1.2 times. Beside std's map with its `RandomState`, look-ups of
/// present ids took 0.65 to 0.8 of the time, of absent ids 0.4 to 1.1, and insertions 0.75 to 1.05.
/// Each time is the least of a thousand rounds or more on 2026-12-01, in which the maps took turns.
#[macro_export]
macro_rules! int_key {
    ($(
        $(#[$attribute:meta])*
        $visibility:vis struct $name:ident($inner:vis $integer:ty) $(scrambled by $secret:expr)?;
    )+) => { $(
        $(#[$attribute])*
        #[derive(Clone, Copy, PartialEq, Eq)]
        $visibility struct $name($inner $integer);

        impl $crate::IntKey for $name {
            #[inline(always)]
            fn number(&self) -> u64 {
                let number = $crate::IntKey::number(&self.0);
                $(let number = $crate::scramble(number, $secret);)?
                number
            }
        }
    )+ };
    ($(
        $(#[$attribute:meta])*
        $visibility:vis enum $name:ident {
            $($(#[$mark:meta])* $variant:ident $(= $discriminant:expr)?),+ $(,)?
        }
    )+) => { $(
        $(#[$attribute])*
        #[derive(Clone, Copy, PartialEq, Eq)]
        $visibility enum $name {
            $($(#[$mark])* $variant $(= $discriminant)?),+
        }

        // of 128 bits the number would have the lower half alone
        const _: () = ::core::assert!(::core::mem::size_of::<$name>() <= 8, "more than 64 bits");

        impl $crate::IntKey for $name {
            #[inline(always)]
            fn number(&self) -> u64 {
                *self as u64
            }
        }
    )+ };
    ($(for $($name:ident)::+ by |$key:ident| $number:expr;)+) => { $(
        impl $crate::IntKey for $($name)::+ {
            #[inline(always)]
            fn number(&self) -> u64 {
                let $key = self;
                $crate::IntKey::number(&$number)
            }
        }
    )+ };
}

/// Scrambles a number by a secret. For each secret, different numbers stay different. The cost is
/// *O*(1).
///
/// # What is known of it
///
/// It is the mixing of SplitMix64 behind an exclusive or with the secret. In a test, fewer than 10
/// of 1,000 keys with 12, 32 or 44 equal low bits share a slot. It is no cipher. Someone without
/// the secret may still find many keys of one slot: no proof says otherwise. Whoever sees the order
/// of iteration, or measures the time of calls, may learn the secret, or enough of it to choose
/// such keys. Where that matters, or one secret serves many parties, take std's map with its
/// `RandomState`.
///
/// ```
/// use intmap_proved::scramble;
///
/// let low_bits = |secret| [0, 1 << 32, 2 << 32].map(|number| scramble(number, secret) % 256);
/// assert_eq!(low_bits(7), [20, 174, 70]);
/// assert_ne!(low_bits(8), low_bits(7));
/// ```
#[inline]
pub const fn scramble(number: u64, secret: u64) -> u64 {
    let mut bits = number ^ secret;
    // each step can be undone: a shift right under an exclusive or, and an odd factor
    bits = (bits ^ bits >> 30).wrapping_mul(0xBF58_476D_1CE4_E5B9);
    bits = (bits ^ bits >> 27).wrapping_mul(0x94D0_49BB_1331_11EB);
    bits ^ bits >> 31
}
