//! The lowest free row, found without a look at the marks of all rows: a bit for each word of marks that is full.

use crate::lent::rows::{Rows, WORD};
use crate::limits::{Number, Word, MOST_ROOM};

const WORDS: usize = MOST_ROOM / WORD;

#[derive(Clone, Debug, Default)]
pub struct Free {
    /// How many rows are used.
    pub used: usize,
    full: [Word; WORDS / WORD],
}

impl Free {
    /// Takes the lowest free row and answers its index; there must be one.
    pub fn take<const NUMBERS: usize>(
        &mut self,
        rows: &mut Rows<NUMBERS>,
        row: [Number; NUMBERS],
    ) -> usize {
        let sixty_four = self.full.iter().position(|&full| full != Word::MAX);
        let sixty_four = sixty_four.expect("a free row");
        let word = lowest_free(sixty_four, self.full[sixty_four]);
        let index = lowest_free(word, rows.marks()[word]);
        rows.put(index, row);
        if rows.marks()[word] == Word::MAX {
            self.full[word / WORD] |= 1 << (word % WORD);
        }
        self.used += 1;
        index
    }

    /// Ends a row.
    pub fn end<const NUMBERS: usize>(&mut self, rows: &mut Rows<NUMBERS>, index: usize) {
        rows.end(index);
        let word = index / WORD;
        self.full[word / WORD] &= !(1 << (word % WORD));
        self.used -= 1;
    }
}

/// What the lowest bit that is not set stands for, these being the bits of a word with this index.
fn lowest_free(word: usize, bits: Word) -> usize {
    word * WORD + bits.trailing_ones() as usize
}
