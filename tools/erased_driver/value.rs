//! The types of values.
use std::fmt::Debug;

/// A value that is made of a number. One that was torn apart fails.
pub trait Value: Clone + Debug + PartialEq {
    /// More keys than this would take too much memory.
    const KEYS: u64 = 3_000;

    /// The value of a number.
    fn of(number: u64) -> Self;

    /// The number that the value was made of, or a part of it.
    fn number(&self) -> u64;
}

impl Value for u64 {
    fn of(number: u64) -> u64 {
        number
    }

    fn number(&self) -> u64 {
        *self
    }
}

impl Value for Box<u64> {
    fn of(number: u64) -> Box<u64> {
        Box::new(number)
    }

    fn number(&self) -> u64 {
        **self
    }
}

/// Texts of one to 20 digits.
impl Value for String {
    fn of(number: u64) -> String {
        (number >> (number % 64)).to_string()
    }

    fn number(&self) -> u64 {
        self.parse().expect("a text of digits")
    }
}

impl Value for () {
    fn of(_: u64) {}

    fn number(&self) -> u64 {
        0
    }
}

/// Bytes that count up from the lowest one of the number.
impl Value for [u8; 256] {
    const KEYS: u64 = 300;

    fn of(number: u64) -> [u8; 256] {
        std::array::from_fn(|place| (number as u8).wrapping_add(place as u8))
    }

    fn number(&self) -> u64 {
        assert_eq!(*self, Self::of(self[0].into()), "all bytes belong together");
        self[0].into()
    }
}
