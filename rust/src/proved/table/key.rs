//! The types of keys that a map takes. Each key of such a type has a number of its own.

mod narrow;
mod wide;

/// A type of keys. Each key has a number below `2 ^ 64` that no other key has.
///
/// A slot is chosen by the low bits of the number: two keys share a slot if and only if their
/// numbers are equal modulo the capacity. Keys with equal low bits therefore share slots, and each
/// call that looks for one of them is slow: addresses, ids shifted left, times in round units,
/// pairs packed as `a << 32 | b`. Number such keys so that their low bits differ: divide by the
/// unit, or use `row * WIDTH + column`.
///
/// A `u8`, `u16`, `u32`, `u64` or `usize` is its own number. So is an `i32` or `i64` that isn't
/// negative; a negative one has the number that is `2 ^ 64` more.
#[diagnostic::on_unimplemented(
    message = "`{Self}` isn't a type of keys",
    label = "this type has no `IntKey`",
    note = "the macro `int_key!` makes types of keys, and a type that is `Copy + Eq` can have an `impl IntKey`"
)]
pub trait IntKey: Copy + Eq {
    /// The number of this key.
    fn number(&self) -> u64;
}
