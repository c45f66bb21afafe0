//! Helpers of the tests: traces written with spaces for tabs, judged to their end, and lent tables.

use plain::findings::Findings;
use plain::judge::Judge;
use plain::lent::book::WIDTH;
use plain::lent::references::CLASS;
use plain::lent::reply::list_reply;
use plain::lent::rows::WORD;
use plain::lent::slices::Slices;
use plain::limits::{Number, PIN_NUMBERS, REFERENCE_NUMBERS};
use plain::room::{Room, LENT};

/// A line given with spaces for tabs and without its LF.
pub fn line(text: &str) -> Vec<u8> {
    format!("{}\n", text.replace(' ', "\t")).into_bytes()
}

pub fn trace(lines: &[&str]) -> Vec<u8> {
    lines.iter().flat_map(|text| line(text)).collect()
}

pub fn strs(lines: &[String]) -> Vec<&str> {
    lines.iter().map(String::as_str).collect()
}

/// The findings as `line rule place thing`.
pub fn told(findings: &Findings) -> Vec<String> {
    findings
        .iter()
        .map(|found| {
            format!(
                "{} {} {} {}",
                found.line, found.rule, found.place, found.thing
            )
        })
        .collect()
}

/// Room for so many rows, and for as many identities as the program lends.
pub fn room(references: usize, pins: usize) -> Room {
    Room {
        references,
        pins,
        ..LENT
    }
}

/// A judge that has accepted all the lines, and their findings.
#[track_caller]
pub fn judged_with(room: Room, lines: &[&str]) -> (Judge, Vec<String>) {
    let mut judge = Judge::new(room);
    let mut findings = Vec::new();
    for text in lines {
        match judge.step(&line(text)) {
            Ok(found) => findings.extend(told(&found)),
            Err(refusal) => panic!("{text} is refused with {refusal}"),
        }
    }
    (judge, findings)
}

#[track_caller]
pub fn judged(lines: &[&str]) -> (Judge, Vec<String>) {
    judged_with(LENT, lines)
}

/// The findings of lines that are all accepted.
#[track_caller]
pub fn findings(lines: &[&str]) -> Vec<String> {
    judged(lines).1
}

/// The number by which the last line is refused, the others being accepted.
#[track_caller]
pub fn refusal(lines: &[&str]) -> u8 {
    refusal_with(LENT, lines)
}

#[track_caller]
pub fn refusal_with(room: Room, lines: &[&str]) -> u8 {
    let (last, before) = lines.split_last().expect("a line");
    let (mut judge, _) = judged_with(room, before);
    judge.step(&line(last)).expect_err("a refused last line")
}

/// The second of two equal buffers is got when the first row is free again, so that it gets the lower row.
pub const TWO_EQUAL_TURNED: [&str; 9] = [
    "N 1 100 5",
    "C 1 100 165 5 0 0 0",
    "R 1 165 40 0",
    "C 1 100 169 5 0 0 0",
    "R 1 169 8 0",
    "C 1 100 166 5 40 0 0",
    "R 1 166 0 0",
    "C 1 100 169 5 0 0 0",
    "R 1 169 8 0",
];

/// What the tests do with lent tables.
pub trait Lent {
    /// Tables of so much room that have accepted these lines.
    fn after(room: Room, lines: &[&str]) -> Self;

    /// A step, which must leave everything untouched where it refuses.
    fn tested_step(&mut self, line: &[u8]) -> Result<Findings, u8>;

    /// The findings of a line that is accepted.
    fn accepts(&mut self, text: &str) -> Vec<String>;

    /// The number by which a line is refused.
    fn refuses(&mut self, text: &str) -> u8;

    /// The reply to a list call with a slice of so many nines, and what is left in the slice; the tables must be left untouched.
    fn lists(&mut self, length: usize) -> (i32, Vec<Number>);

    /// A number of the book.
    fn at(&mut self, row: usize, column: usize) -> &mut u64;

    /// Writes a reference row without a class and marks it.
    fn put_reference(&mut self, index: usize, row: [Number; REFERENCE_NUMBERS - 1]);

    /// The class in a reference row.
    fn class_in(&mut self, index: usize) -> &mut Number;

    /// The super of a class.
    fn superclass(&mut self, class: usize) -> &mut Number;

    /// Writes a pin row and marks it.
    fn put_pin(&mut self, index: usize, row: [Number; PIN_NUMBERS]);
}

impl Lent for Slices {
    #[track_caller]
    fn after(room: Room, lines: &[&str]) -> Slices {
        let mut lent = Slices::new(room);
        for text in lines {
            lent.accepts(text);
        }
        lent
    }

    #[track_caller]
    fn tested_step(&mut self, line: &[u8]) -> Result<Findings, u8> {
        let before = self.clone();
        let stepped = self.step(line);
        if stepped.is_err() {
            assert_eq!(*self, before);
        }
        stepped
    }

    #[track_caller]
    fn accepts(&mut self, text: &str) -> Vec<String> {
        match self.tested_step(&line(text)) {
            Ok(findings) => told(&findings),
            Err(refusal) => panic!("{text} is refused with {refusal}"),
        }
    }

    #[track_caller]
    fn refuses(&mut self, text: &str) -> u8 {
        match self.tested_step(&line(text)) {
            Ok(findings) => panic!("{text} is accepted with {:?}", told(&findings)),
            Err(refusal) => refusal,
        }
    }

    #[track_caller]
    fn lists(&mut self, length: usize) -> (i32, Vec<Number>) {
        let before = self.clone();
        let mut list = vec![9; length];
        let reply = list_reply(self.list_leaks(&mut list));
        assert_eq!(*self, before);
        (reply, list)
    }

    fn at(&mut self, row: usize, column: usize) -> &mut u64 {
        &mut self.book[row * WIDTH + column]
    }

    fn put_reference(&mut self, index: usize, row: [Number; REFERENCE_NUMBERS - 1]) {
        let [thread, handle, frame, line] = row;
        self.rows.as_chunks_mut().0[index] = [thread, handle, frame, line, 0];
        self.marks[index / WORD] |= 1 << (index % WORD);
    }

    fn class_in(&mut self, index: usize) -> &mut Number {
        &mut self.rows[index * REFERENCE_NUMBERS + CLASS]
    }

    fn superclass(&mut self, class: usize) -> &mut Number {
        &mut self.classes[class - 1]
    }

    fn put_pin(&mut self, index: usize, row: [Number; PIN_NUMBERS]) {
        self.pins.as_chunks_mut().0[index] = row;
        self.pin_marks[index / WORD] |= 1 << (index % WORD);
    }
}
