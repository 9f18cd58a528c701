//! Whether a table has too few slots for its pairs, and how many slots it needs.

/// The greatest number of slots.
pub(in crate::proved::map) const GREATEST_CAPACITY: usize = 9223372036854775808;

/// The least capacity, among `capacity` and its doublings, in which `len` pairs meet the load
/// factor `factor`, in thousandths. It is `None` if no capacity up to 2^63 is enough.
pub(in crate::proved::map) fn wanted_capacity(len: usize, capacity: usize, factor: usize) -> Option<usize> {
    let need = len as u128 * 1000;
    let each = factor as u128 + 1;
    let mut slots = capacity;
    while need >= each * slots as u128 {
        if slots == GREATEST_CAPACITY {
            return None;
        }
        slots *= 2;
    }
    Some(slots)
}

/// The greatest number of pairs, at most `usize::MAX`, that meets the load factor in `capacity`
/// slots.
pub(in crate::proved::map) fn threshold_of(capacity: usize, factor: usize) -> usize {
    let most = ((factor as u128 + 1) * capacity as u128 - 1) / 1000;
    if most > usize::MAX as u128 {
        usize::MAX
    } else {
        most as usize
    }
}

/// Whether a map of `len` pairs takes one more in its slots: the greater length isn't above the
/// threshold, or the load isn't checked at it.
#[inline(always)]
pub(in crate::proved::map) fn takes_one_more(len: usize, threshold: usize) -> bool {
    // the test that most insertions need comes first
    len < threshold || len != usize::MAX && (len + 1) & 4 != 4
}
