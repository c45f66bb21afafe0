//! The lengths of lent slices: whole rows with their marks, and every other sort.

use crate::lent::book::WHOLE;
use crate::lent::leaks::RECORD;
use crate::lent::rows::WORD;
use crate::limits::{IDENTITY_NUMBERS, MOST_CLASSES, MOST_ROOM};
use crate::random::Random;

/// How many numbers of rows, so many to a row, and how many words of marks are lent.
pub fn of_rows(random: &mut Random, to_a_row: usize) -> (usize, usize) {
    let rows = match random.below(200) {
        0 => great(random),
        1..=9 => random.between(600, 3_000) as usize,
        10..=29 => 0,
        30..=79 => random.pick(&[1, 2, 63, 64, 65, 127, 128, 129]),
        80..=139 => random.below(20),
        _ => random.below(200),
    };
    let numbers = rows * to_a_row;
    let words = rows.div_ceil(WORD);
    match random.below(10) {
        0 | 1 => (numbers + 1 + random.below(to_a_row - 1), words),
        2 => (numbers, words + random.below(4)),
        3 => (numbers, words.saturating_sub(1)),
        4 => (random.below(numbers + 1), random.below(words + 2)),
        _ => (numbers, words),
    }
}

/// About as many rows as a room can have.
pub fn great(random: &mut Random) -> usize {
    MOST_ROOM - 2 + random.below(5)
}

/// How many numbers of a thread book are lent: mostly a whole one.
pub fn of_book(random: &mut Random) -> usize {
    match random.below(40) {
        0 => random.pick(&[0, 1, WHOLE - 1, WHOLE / 2]),
        1 => random.below(WHOLE),
        2..=5 => WHOLE + 1 + random.below(600),
        _ => WHOLE,
    }
}

/// How many numbers of a class table and of identities behind it are lent: mostly a whole table, and few places or none.
pub fn of_classes(random: &mut Random) -> usize {
    let places = match random.below(10) {
        0 => 0,
        1..=6 => random.between(1, 8) as usize,
        7 | 8 => random.pick(&[16, 17, 24, 25, 31, 32]),
        _ => random.below(300),
    };
    let past = random.pick(&[0, 0, 0, 1, 2, 3]);
    match random.below(40) {
        0 => random.pick(&[0, 1, MOST_CLASSES - 1, MOST_CLASSES / 2]),
        1 => random.below(MOST_CLASSES),
        _ => MOST_CLASSES + IDENTITY_NUMBERS * places + past,
    }
}

/// How many numbers are lent for a list of so many leaks: just enough, some more, or too few.
pub fn of_list(random: &mut Random, leaks: usize) -> usize {
    let needed = RECORD * leaks;
    match random.below(10) {
        0..=2 => needed,
        3 | 4 => needed + random.below(RECORD),
        5 => needed + random.below(10 * RECORD),
        6 => needed.saturating_sub(1),
        7 => needed.saturating_sub(RECORD),
        8 => random.below(needed + 1),
        _ => random.below(3 * RECORD),
    }
}
