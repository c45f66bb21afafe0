//! Lent rows and their marks, one bit to a row, whatever they hold; scanned for each lookup and each count.

use crate::limits::{Number, Word, MOST_ROOM};

/// Marks to a word.
pub const WORD: usize = Word::BITS as usize;
/// The columns of the thread and of the making line, in rows of both sorts.
pub const THREAD: usize = 0;
pub const LINE: usize = 3;

/// The rows that count as room, so many numbers to a row, and the words of their marks.
pub struct Rows<'a, const NUMBERS: usize> {
    rows: &'a mut [[Number; NUMBERS]],
    marks: &'a mut [Word],
}

impl<'a, const NUMBERS: usize> Rows<'a, NUMBERS> {
    /// Room is the lesser of rows and marks, at most 65,536. Numbers and marks past it are neither read nor written.
    pub fn new(numbers: &'a mut [Number], marks: &'a mut [Word]) -> Rows<'a, NUMBERS> {
        let (rows, _) = numbers.as_chunks_mut();
        let room = rows.len().min(marks.len() * WORD).min(MOST_ROOM);
        Rows {
            rows: &mut rows[..room],
            marks: &mut marks[..room.div_ceil(WORD)],
        }
    }

    pub fn room(&self) -> usize {
        self.rows.len()
    }

    pub fn is_used(&self, index: usize) -> bool {
        self.marks[index / WORD] >> (index % WORD) & 1 == 1
    }

    /// The rows of the room, used or not.
    pub fn all(&self) -> &[[Number; NUMBERS]] {
        self.rows
    }

    /// A row of the room, to be changed.
    pub fn row_mut(&mut self, index: usize) -> &mut [Number; NUMBERS] {
        &mut self.rows[index]
    }

    /// The marks of the room, the lowest row's the lowest bit.
    pub fn marks(&self) -> &[Word] {
        self.marks
    }

    /// The used rows of the room, the lowest first.
    pub fn all_used(&self) -> impl Iterator<Item = &[Number; NUMBERS]> {
        let rows = self.rows.iter().enumerate();
        rows.filter(|&(index, _)| self.is_used(index))
            .map(|(_, row)| row)
    }

    /// How many rows of the room are used.
    pub fn used(&self) -> usize {
        let (whole, past) = (self.room() / WORD, self.room() % WORD);
        let ones = |words: &[Word]| -> u32 { words.iter().map(|word| word.count_ones()).sum() };
        let used = match self.marks.get(whole) {
            Some(last) => ones(&self.marks[..whole]) + (last & !(Word::MAX << past)).count_ones(),
            None => ones(self.marks),
        };
        used as usize
    }

    pub fn free(&self) -> usize {
        self.room() - self.used()
    }

    /// Whether a used row matches.
    pub fn has(&self, matches: impl Fn(&[Number; NUMBERS]) -> bool) -> bool {
        self.lowest(matches).is_some()
    }

    /// The lowest used row that matches, if there is one.
    pub fn find(&self, matches: impl Fn(&[Number; NUMBERS]) -> bool) -> Option<&[Number; NUMBERS]> {
        self.lowest(matches).map(|index| &self.rows[index])
    }

    /// The same, to be changed.
    pub fn find_mut(
        &mut self,
        matches: impl Fn(&[Number; NUMBERS]) -> bool,
    ) -> Option<&mut [Number; NUMBERS]> {
        self.lowest(matches).map(|index| &mut self.rows[index])
    }

    /// How many used rows match.
    pub fn count(&self, matches: impl Fn(&[Number; NUMBERS]) -> bool) -> usize {
        let words = self.rows.chunks(WORD).zip(self.marks.iter());
        let counts = words.map(|(rows, word)| {
            let rows = rows.iter().enumerate();
            rows.filter(|&(bit, row)| matches(row) && word >> bit & 1 == 1)
                .count()
        });
        counts.sum()
    }

    /// The index of the lowest used row that matches.
    fn lowest(&self, matches: impl Fn(&[Number; NUMBERS]) -> bool) -> Option<usize> {
        // Four rows at a time: how fast a shorter loop is depends on where it is linked.
        let (fours, _) = self.rows.as_chunks::<4>();
        let passed = fours.iter().position(|four| four.iter().any(&matches));
        let first = 4 * passed.unwrap_or(fours.len());
        (first..self.room()).find(|&index| matches(&self.rows[index]) && self.is_used(index))
    }

    /// Takes the lowest free row; there must be one.
    pub fn take(&mut self, row: [Number; NUMBERS]) {
        let word = self.marks.iter().position(|&word| word != Word::MAX);
        let word = word.expect("a free row");
        let bit = self.marks[word].trailing_ones();
        self.put(word * WORD + bit as usize, row);
    }

    /// Writes a row and marks it.
    pub fn put(&mut self, index: usize, row: [Number; NUMBERS]) {
        self.marks[index / WORD] |= 1 << (index % WORD);
        self.rows[index] = row;
    }

    /// Ends the lowest used row that matches, if there is one.
    pub fn end_lowest(&mut self, matches: impl Fn(&[Number; NUMBERS]) -> bool) {
        if let Some(index) = self.lowest(matches) {
            self.end(index);
        }
    }

    /// Ends every used row that matches.
    pub fn end_all(&mut self, matches: impl Fn(&[Number; NUMBERS]) -> bool) {
        for index in 0..self.room() {
            if matches(&self.rows[index]) && self.is_used(index) {
                self.end(index);
            }
        }
    }

    /// Zeroes a row and takes its mark away.
    pub fn end(&mut self, index: usize) {
        self.rows[index] = [0; NUMBERS];
        self.marks[index / WORD] &= !(1 << (index % WORD));
    }
}
