//! The marked elements of a slice, to be written.
use super::{BITS, Bits};
use crate::memory::Vec;
use crate::memory::alloc::{Allocator, Global};
use core::mem::take;

/// The marked elements that are left: those of the current word, then those of the words behind it.
pub(in crate::proved::table) struct MarkedMut<'a, T> {
    word: u64,
    /// How many elements of the current word are no longer in `elements`.
    passed: usize,
    elements: &'a mut [T],
    words: &'a [u64],
    behind: &'a mut [T],
}

impl Bits<Global> {
    /// No bits.
    pub(in crate::proved::table) const NONE: Self = Bits { words: Vec::new(Global) };
}

impl<A: Allocator> Bits<A> {
    /// The elements whose indices are marked, by mutable reference.
    pub(in crate::proved::table) fn pick<'a, T>(&'a self, behind: &'a mut [T]) -> MarkedMut<'a, T> {
        MarkedMut { word: 0, passed: 0, elements: &mut [], words: &self.words, behind }
    }
}

impl<'a, T> MarkedMut<'a, T> {
    /// The same elements, which stay to be returned.
    #[inline(always)]
    pub(in crate::proved::table) fn rest(&mut self) -> MarkedMut<'_, T> {
        let MarkedMut { word, passed, words, .. } = *self;
        MarkedMut { word, passed, elements: self.elements, words, behind: self.behind }
    }

    /// Calls a function at each element that meets a condition. The condition is asked of all elements
    /// of a word before the first call, so that no jump depends on its answer.
    #[inline(always)]
    pub(in crate::proved::table) fn for_each_that(
        mut self,
        meets: impl Fn(&T) -> bool,
        mut f: impl FnMut(&mut T),
    ) {
        loop {
            self.word = self.marks_that(&meets);
            while self.word != 0 {
                f(self.take_next());
            }
            if !self.next_word() {
                return;
            }
        }
    }

    /// The marks of the current word whose elements meet a condition.
    #[inline(always)]
    fn marks_that(&self, meets: impl Fn(&T) -> bool) -> u64 {
        let (mut left, mut marks) = (self.word, 0);
        while left != 0 {
            let index = left.trailing_zeros() as usize;
            marks |= u64::from(meets(&self.elements[index - self.passed])) << index;
            left &= left - 1;
        }
        marks
    }

    /// Goes on to the next word, if there is one.
    #[inline(always)]
    fn next_word(&mut self) -> bool {
        let [word, words @ ..] = self.words else { return false };
        let behind = take(&mut self.behind);
        (self.elements, self.behind) = behind.split_at_mut(behind.len().min(BITS));
        (self.word, self.words, self.passed) = (*word, words, 0);
        true
    }

    /// Takes the element of the first mark of the current word, which has one.
    #[inline(always)]
    fn take_next(&mut self) -> &'a mut T {
        let index = self.word.trailing_zeros() as usize;
        self.word &= self.word - 1;
        let between = index - self.passed;
        self.passed = index + 1;
        take_at(&mut self.elements, between)
    }
}

/// Takes the element at an index off a slice, with those before it.
#[inline(always)]
pub(in crate::proved::table) fn take_at<'a, T>(rest: &mut &'a mut [T], index: usize) -> &'a mut T {
    let [element, behind @ ..] = &mut take(rest)[index..] else { unreachable!() };
    *rest = behind;
    element
}

impl<'a, T> Iterator for MarkedMut<'a, T> {
    type Item = &'a mut T;

    #[inline(always)]
    fn next(&mut self) -> Option<&'a mut T> {
        while self.word == 0 {
            if !self.next_word() {
                return None;
            }
        }
        Some(self.take_next())
    }
}
