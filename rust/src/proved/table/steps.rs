//! Counters of steps. A counter takes no memory, and only contracts see its number.

/// The number behind a counter. It exists in proofs alone.
struct Tally {}

impl Tally {
    /// A tally of zero.
    #[inline(always)]
    fn new() -> Tally {
        Tally {}
    }

    /// The tally that is one greater.
    #[inline(always)]
    fn and_one(&self) -> Tally {
        Tally {}
    }

    /// The greater of the tally and a sum.
    #[inline(always)]
    fn or_sum(&self, part: usize, more: usize) -> Tally {
        Tally {}
    }
}

/// A counter of steps. Contracts see it as the number of steps counted so far. The running program
/// has no trace of it: a counter takes no memory, and no method reads the number.
///
/// A caller makes a counter or has one by `&mut`, passes it to `IntMap::get_counted`, and mentions
/// it in a contract of its own:
pub struct Steps {
    tally: Tally,
}

impl Steps {
    /// A counter at zero.
    #[inline(always)]
    pub fn new() -> Steps {
        Steps {
            tally: Tally::new(),
        }
    }

    /// Counts one step. Only this crate can call it, so no caller of the crate can add to a count.
    #[inline(always)]
    pub(in crate::proved::table) fn tick(&mut self) {
        self.tally = self.tally.and_one();
    }

    /// Makes the number at least a sum. Only this crate can call it.
    #[inline(always)]
    pub(in crate::proved::table) fn raise_to(&mut self, part: usize, more: usize) {
        self.tally = self.tally.or_sum(part, more);
    }
}
