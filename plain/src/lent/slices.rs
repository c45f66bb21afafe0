//! The six slices that are lent, by whatever holds them.

use super::book::{Book, WHOLE};
use super::classes::Classes;
use super::identities::Places;
use super::pins::Pins;
use super::references::References;
use super::rows::{Rows, WORD};
use super::Tables;
use crate::findings::Findings;
use crate::limits::{Number, Word, IDENTITY_NUMBERS, MOST_CLASSES, PIN_NUMBERS, REFERENCE_NUMBERS};
use crate::refusal::Refusal;
use crate::room::Room;
use std::ops::DerefMut;

/// Six slices; their numbers are owned if nothing else is said.
#[derive(Clone, Debug, PartialEq, Eq)]
pub struct Slices<Numbers = Vec<Number>, Words = Vec<Word>> {
    pub rows: Numbers,
    pub marks: Words,
    pub pins: Numbers,
    pub pin_marks: Words,
    pub book: Words,
    /// The supers, and the identities behind them.
    pub classes: Numbers,
}

/// Six slices as they are lent.
pub type Lent<'a> = Slices<&'a mut [Number], &'a mut [Word]>;

impl Slices {
    /// Slices of so much room, a whole book and a whole class table, as a start leaves them.
    pub fn new(room: Room) -> Slices {
        Slices {
            rows: vec![0; room.references * REFERENCE_NUMBERS],
            marks: vec![0; room.references.div_ceil(WORD)],
            pins: vec![0; room.pins * PIN_NUMBERS],
            pin_marks: vec![0; room.pins.div_ceil(WORD)],
            book: vec![0; WHOLE],
            classes: vec![0; MOST_CLASSES + room.identities * IDENTITY_NUMBERS],
        }
    }
}

impl<'a> Lent<'a> {
    /// What is seen in them, their rows being scanned.
    pub fn scanned(self) -> Tables<'a> {
        let (classes, identities) = Classes::split(self.classes);
        Tables {
            references: References {
                rows: Rows::new(self.rows, self.marks),
            },
            pins: Pins {
                rows: Rows::new(self.pins, self.pin_marks),
            },
            book: Book::new(self.book),
            classes,
            identities: Places::new(identities),
        }
    }
}

impl<Numbers, Words> Slices<Numbers, Words>
where
    Numbers: DerefMut<Target = [Number]>,
    Words: DerefMut<Target = [Word]>,
{
    pub fn lend(&mut self) -> Lent<'_> {
        Slices {
            rows: &mut self.rows,
            marks: &mut self.marks,
            pins: &mut self.pins,
            pin_marks: &mut self.pin_marks,
            book: &mut self.book,
            classes: &mut self.classes,
        }
    }

    pub fn tables(&mut self) -> Tables<'_> {
        self.lend().scanned()
    }

    /// A start: every number of every slice is 0.
    pub fn start(&mut self) {
        let lent = self.lend();
        lent.rows.fill(0);
        lent.marks.fill(0);
        lent.pins.fill(0);
        lent.pin_marks.fill(0);
        lent.book.fill(0);
        lent.classes.fill(0);
    }

    /// Judges one lent line; a refused line changes nothing.
    pub fn step(&mut self, line: &[u8]) -> Result<Findings, Refusal> {
        self.tables().step(line)
    }

    /// Lists the leaks in another lent slice; these six stay as they are.
    pub fn list_leaks(&mut self, list: &mut [Number]) -> Result<usize, Refusal> {
        self.tables().list_leaks(list)
    }
}
