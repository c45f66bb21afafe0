//! From a start the tables stay such as only a start and accepted lines leave: the judge, which does not test its own book, relies on it.

use crate::common::Lent;
use plain::judge::Judge;
use plain::lent::book::*;
use plain::lent::rows::WORD;
use plain::lent::slices::Slices;
use plain::limits::{Number, PIN_NUMBERS, REFERENCE_NUMBERS};
use plain::make::{make, PROFILES};
use plain::random::Random;
use plain::room::Room;

/// Runs the judge and the step over lent tables over a trace, refused lines among the others, and holds the replies to one another.
fn follow(trace: &[u8], room: Room) -> usize {
    let mut judge = Judge::new(room);
    let mut lent = Slices::new(room);
    let (mut steps, mut accepted) = (0, 0);
    for line in trace.split_inclusive(|&byte| byte == b'\n') {
        for other in [line, b"N\t1\t1\t1\t5\n", b"R\t1\t6\t5\t0\n"] {
            let stepped = lent.tested_step(other);
            let told = String::from_utf8_lossy(other);
            assert_eq!(stepped, judge.step(other), "{told}");
            steps += 1;
            accepted += u64::from(stepped.is_ok());
        }
    }
    assert_eq!(*lent.at(0, LINES), accepted);
    assert_left(&mut lent);
    steps
}

/// What a start and accepted lines leave.
fn assert_left(lent: &mut Slices) {
    assert_rows::<REFERENCE_NUMBERS>(&lent.rows, &lent.marks);
    assert_rows::<PIN_NUMBERS>(&lent.pins, &lent.pin_marks);
    assert!(*lent.at(0, CLOSED) <= 1);
    for row in 1..=16 {
        let [frames, items] = [FRAMES, ITEMS].map(|column| *lent.at(row, column) as usize);
        assert!(*lent.at(row, PENDING) <= 1);
        assert!(frames == 0 || *lent.at(row, ENV) > 0);
        assert!((0..frames).all(|index| *lent.at(row, PUSHED + index) <= 1));
        let mut own = 0;
        for index in 0..frames {
            own += 1 - *lent.at(row, PUSHED + index);
        }
        assert!(frames == 0 || *lent.at(row, PUSHED) == 0);
        // Natives and open calls by turns, a native or an attached item the lowest, each of these with a frame of its own.
        for index in 0..items {
            let function = *lent.at(row, FUNCTIONS + index);
            let is_native = *lent.at(row, NATIVES) >> index & 1 == 1;
            assert_eq!(is_native, index % 2 == 0);
            assert_eq!(function <= OF_ATTACHED, is_native);
            assert!(index == 0 || function != OF_ATTACHED);
            assert!(is_native || (4..=232).contains(&function));
        }
        assert_eq!(items.div_ceil(2) as u64, own);
    }
}

/// The rows that are not zero are marked, and no others.
fn assert_rows<const NUMBERS: usize>(numbers: &[Number], marks: &[u64]) {
    for (index, row) in numbers.as_chunks::<NUMBERS>().0.iter().enumerate() {
        let marked = marks[index / WORD] >> (index % WORD) & 1 == 1;
        assert_eq!(marked, *row != [0; NUMBERS]);
    }
}

#[test]
fn from_a_start_lent_tables_follow_the_judge() {
    let mut steps = 0;
    for seed in 0..12 {
        for profile in &PROFILES {
            let mut random = Random::new(seed);
            let (fewest, most) = profile.usual_lines;
            let lines = random.between(fewest, most.min(fewest + 300)) as usize;
            let room = Room {
                references: random.pick(&[0, 3, 8, 64, 65, 200, 2_048]),
                pins: random.pick(&[0, 1, 8, 63, 256]),
                identities: random.pick(&[0, 1, 2, 7, 30, 1_024]),
            };
            let trace = make(profile, seed, lines, room);
            steps += follow(&trace, room);
        }
    }
    assert!(steps > 50_000, "{steps}");
}
