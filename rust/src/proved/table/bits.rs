//! One bit for each index.

use crate::memory::prelude::*;
use crate::memory::alloc::{AllocError, Allocator};

/// The number of bits of a word.
pub(in crate::proved::table) const BITS: usize = 64;

/// One bit for each index: whether it is marked.
pub(in crate::proved::table) struct Bits<A: Allocator> {
    words: Vec<u64, A>,
}

/// The marks of one word that a walk hasn't passed yet, and the place of this word. The walk reads
/// the next word only once this one has no mark left.
pub(in crate::proved::table) struct MarksLeft {
    pub(in crate::proved::table) at: usize,
    pub(in crate::proved::table) word: u64,
}

impl<A: Allocator> Bits<A> {
    /// The word that has the bit of an index.
    #[inline(always)]
    pub(in crate::proved::table) fn word(&self, index: usize) -> u64 {
        self.words[index / BITS]
    }

    /// Replaces the word that has the bit of an index. The bits of other words stay.
    #[inline(always)]
    pub(in crate::proved::table) fn set_word(&mut self, index: usize, word: u64) {
        self.words[index / BITS] = word;
    }

    /// Marks an index, whose word was read before. No other index changes.
    #[inline(always)]
    pub(in crate::proved::table) fn set_in(&mut self, word: u64, index: usize) {
        self.words[index / BITS] = word | 1 << (index % BITS);
    }

    /// Clears the mark of an index, whose word was read before. No other index changes.
    #[inline(always)]
    pub(in crate::proved::table) fn clear_in(&mut self, word: u64, index: usize) {
        self.words[index / BITS] = word & !(1 << (index % BITS));
    }

    /// Marks an index. No other index changes.
    #[inline(always)]
    pub(in crate::proved::table) fn set(&mut self, index: usize) {
        self.set_in(self.word(index), index);
    }

    /// Clears the mark of an index. No other index changes.
    #[inline(always)]
    pub(in crate::proved::table) fn clear(&mut self, index: usize) {
        self.clear_in(self.word(index), index);
    }

    /// Clears all marks.
    pub(in crate::proved::table) fn clear_all(&mut self) {
        self.words.as_mut_slice().fill(0);
    }

    /// The number of marked indices.
    pub(in crate::proved::table) fn count(&self) -> usize {
        let mut marked = 0;
        for word in &self.words {
            marked += word.count_ones() as usize;
        }
        marked
    }

    /// The marked indices, in ascending order.
    #[inline(always)]
    pub(in crate::proved::table) fn iter(&self) -> Indices<'_> {
        match self.words.split_first() {
            Some((word, words)) => Indices {
                word: *word,
                base: 0,
                words,
            },
            None => Indices {
                word: 0,
                base: 0,
                words: &[],
            },
        }
    }

    /// The marks from an index on that stand in the word of this index.
    #[inline(always)]
    pub(in crate::proved::table) fn marks_from(&self, from: usize) -> MarksLeft {
        let at = from / BITS;
        if at >= self.words.len() {
            return MarksLeft { at, word: 0 };
        }
        let word = self.words[at] & (u64::MAX << (from % BITS));
        MarksLeft { at, word }
    }

    /// The first marked index from `_from` on. Before the call `left` has the marks of its word
    /// from `_from` on, and afterwards those behind the returned index. Only the contract reads
    /// `_from`.
    #[inline(always)]
    pub(in crate::proved::table) fn next_in(&self, left: &mut MarksLeft, _from: usize) -> Option<usize> {
        while left.word == 0 {
            let at = left.at + 1;
            if at >= self.words.len() {
                return None;
            }
            left.word = self.words[at];
            left.at = at;
        }
        let index = left.at * BITS + left.word.trailing_zeros() as usize;
        left.word &= left.word - 1;
        Some(index)
    }
}

impl<A: Allocator + Copy> Bits<A> {
    /// Bits for `indices` indices, rounded up to whole words. No index is marked. It allocates
    /// these words alone.
    pub(in crate::proved::table) fn new(alloc: A, indices: usize) -> Result<Bits<A>, AllocError> {
        let words = vec![in alloc; 0u64; indices.div_ceil(BITS)]?;
        Ok(Bits { words })
    }

    /// A copy of the marks. It allocates the same number of words.
    pub(in crate::proved::table) fn clone(&self) -> Result<Bits<A>, AllocError> {
        let words = Vec::from_slice(*self.words.allocator(), &self.words)?;
        Ok(Bits { words })
    }
}

/// The marked indices that are left: those of the current word, whose first index is the base, and
/// those of the words behind it.
pub(in crate::proved::table) struct Indices<'a> {
    word: u64,
    base: usize,
    words: &'a [u64],
}

impl<'a> Clone for Indices<'a> {
    fn clone(&self) -> Result<Indices<'a>, AllocError> {
        Ok(Indices {
            word: self.word,
            base: self.base,
            words: self.words,
        })
    }
}

impl<'a> Iterator for Indices<'a> {
    type Item = usize;

    #[inline(always)]
    fn next(&mut self) -> Option<usize> {
        loop {
            if self.word != 0 {
                let index = self.base + self.word.trailing_zeros() as usize;
                self.word &= self.word - 1;
                return Some(index);
            }
            let Some((word, words)) = self.words.split_first() else {
                return None;
            };
            self.word = *word;
            self.words = words;
            self.base += BITS;
        }
    }
}

// Only Rust has what follows. It is tested, not proved.
pub mod written;
