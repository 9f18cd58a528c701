//! How many slots hold so many pairs, and load factors.

/// The least capacity of a map or a set.
pub(crate) const LEAST_SLOTS: usize = 2;

/// The least number of slots in which so many pairs meet a load factor, in thousandths. It isn't
/// rounded up to a power of two. If it is above 2^64 - 1, it is cut to that, which is refused.
pub(crate) fn slots_for(pairs: usize, factor: usize) -> usize {
    let least = pairs as u128 * 1000 / (factor as u128 + 1) + 1;
    usize::try_from(least).unwrap_or(usize::MAX)
}

/// Returns a load factor in thousandths, cut to a whole number. A debug build panics at 10 or more,
/// and at a `NaN`.
#[track_caller]
pub(crate) fn thousandths_of(load_factor: f32) -> usize {
    debug_assert!(
        load_factor < 10.,
        "{load_factor} is no load factor: it is a share, such as 0.75"
    );
    (load_factor * 1000.) as usize
}
