//! Pieces of a trace to judge over foreign tables: lines that are accepted one after another, one that is refused, and any bytes behind them.

use super::lines::line;
use crate::coverage::grounds;
use crate::damage::odd_line;
use crate::facts::{FIRST_FUNCTION, PUSH_LOCAL_FRAME};
use crate::lent::slices::Slices;
use crate::lent::Tables;
use crate::limits::{Handle, Number, Word, MOST_BYTES, MOST_ROOM, THREADS};
use crate::line::read;
use crate::random::Random;
use crate::refusal::*;
use crate::twin::HIGH;
use std::ops::DerefMut;

/// A piece of so many bytes is long: the proved loop finds rows in another way then.
pub const LONG: usize = 4_096;

/// The most tries to find a line for a piece over a great room.
const GREAT_TRIES: usize = 8;

/// The refusals that come up least by themselves, each with any cause or with one that a bare line is looked for.
const RARE: [(Refusal, &str); 31] = [
    (OUT_OF_RANGE, ANY),
    (OUT_OF_RANGE, ANY),
    (WRONG_ENV, ANY),
    (WRONG_ENV, "A changed"),
    (ALREADY_ALIVE, ANY),
    (ALREADY_ALIVE, ANY),
    (NO_ROOM, ANY),
    (NO_ROOM, ANY),
    (NO_ROOM, ANY),
    (NO_ROOM, "N items"),
    (NO_ROOM, "N frames"),
    (NO_ROOM, "C items over attached"),
    (NO_ROOM, "C items over attached"),
    (NO_ROOM, "A frames"),
    (NO_ROOM, "A frames"),
    (NO_ROOM, "R frames"),
    (NO_ROOM, "R frames"),
    (OUT_OF_STEP, "X over attached"),
    (OUT_OF_STEP, "D over native"),
    (NO_ROOM, "M identities"),
    (NO_ROOM, "M identities"),
    (WRONG_CLASS, "M class"),
    (WRONG_CLASS, "M class"),
    (WRONG_CLASS, ANY),
    (WRONG_CLASS, ANY),
    (WRONG_CLASS, ANY),
    (NOT_ALIVE, ANY),
    (NOT_ALIVE, ANY),
    (NOT_ALIVE, ANY),
    (NOT_ALIVE, ANY),
    (NOT_ALIVE, ANY),
];

/// Stands for any cause.
const ANY: &str = "";

/// A piece for these tables, which are left as the lines that it is made of leave them.
pub fn piece<Numbers, Words>(
    slices: &mut Slices<Numbers, Words>,
    follow: &mut Vec<Vec<u8>>,
    random: &mut Random,
) -> Vec<u8>
where
    Numbers: DerefMut<Target = [Number]>,
    Words: DerefMut<Target = [Word]>,
{
    let is_great = slices.rows.len() + slices.pins.len() > MOST_ROOM;
    let wished = random.pick(&RARE);
    // Many lines would take away what a line is refused for.
    let is_there = bare_line(wished, &slices.tables(), random).is_some();
    let tries = match random.below(6) {
        _ if is_great => random.below(GREAT_TRIES),
        3.. if is_there => random.below(3),
        0 => random.below(3),
        1 | 2 => random.between(300, 1_500) as usize,
        _ => random.below(40),
    };
    let (mut piece, mut refused) = (Vec::new(), Vec::new());
    for _ in 0..tries {
        let line = line(&slices.tables(), follow, random);
        // Nothing is accepted behind a Z.
        if line == b"Z\n" && random.percent(90) {
            continue;
        }
        match slices.step(&line) {
            Ok(_) => piece.extend(line),
            Err(refusal) if refusal == wished.0 || refused.is_empty() => refused = line,
            Err(_) => {}
        }
    }
    if let Some(bare) = bare_line(wished, &slices.tables(), random) {
        refused = bare;
    }
    if random.percent(70) {
        piece.extend(refused);
    }
    if piece.len() < LONG && random.percent(70) {
        // Over a great room none of the lines again is judged, which would take long.
        lengthen(&mut piece, is_great, random);
    }
    end(&mut piece, random);
    piece
}

/// A line of some thread that names no handle and is refused over these tables as wished, if there is one.
fn bare_line(wished: (Refusal, &str), tables: &Tables, random: &mut Random) -> Option<Vec<u8>> {
    if wished.1 == ANY || tables.is_unfit() {
        return None;
    }
    let of_thread = |thread: u32| {
        let env = match tables.book.env(thread) {
            0 => 100 * Handle::from(thread),
            env => env,
        };
        [
            format!("N\t{thread}\t{env}\n"),
            format!("X\t{thread}\t0\n"),
            format!("C\t{thread}\t{env}\t{FIRST_FUNCTION}\t0\t0\t0\t0\n"),
            format!("R\t{thread}\t{PUSH_LOCAL_FRAME}\t0\t0\n"),
            format!("A\t{thread}\t{env}\n"),
            format!("A\t{thread}\t{}\n", (env ^ HIGH).max(1)),
            format!("D\t{thread}\n"),
            format!("M\t{}\t1\t1\t0\t0\n", 400 * thread),
            format!("M\t8\t1\t{}\t0\t0\n", 100 * thread),
        ]
    };
    let is_such = |line: &String| {
        let event = read(line.as_bytes()).expect("a line");
        let grounds = grounds(tables, &event);
        grounds.first() == Some(&wished)
    };
    let such: Vec<String> = (1..=THREADS).flat_map(of_thread).filter(is_such).collect();
    (!such.is_empty()).then(|| such[random.below(such.len())].clone().into_bytes())
}

/// Makes a piece long by bytes without an LF, or by its own lines again and again, before which an empty one, which is refused, may stand or must.
fn lengthen(piece: &mut Vec<u8>, must_be_refused: bool, random: &mut Random) {
    let lines = match piece.is_empty() {
        true => odd_line(random),
        false => piece.clone(),
    };
    match random.below(3) {
        0 => piece.extend([b'1'; LONG]),
        1 => piece.push(b'\n'),
        _ if must_be_refused => piece.push(b'\n'),
        _ => {}
    }
    while piece.len() < LONG {
        piece.extend(&lines);
    }
}

/// Leaves a piece as it is, or cuts it off, or lets bytes without an LF follow that are just too long for a line or not.
fn end(piece: &mut Vec<u8>, random: &mut Random) {
    let cut = match random.below(8) {
        0 | 1 => random.below(MOST_BYTES / 4),
        2 => piece.len().saturating_sub(LONG - random.below(2)),
        3 => {
            let length = random.between(MOST_BYTES as u32 - 1, MOST_BYTES as u32 + 2);
            piece.extend(vec![b'1'; length as usize]);
            0
        }
        _ => 0,
    };
    piece.truncate(piece.len().saturating_sub(cut));
}
