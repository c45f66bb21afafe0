//! Holds the proved leak list to the plain judge's over closed tables of which every row leaks, then times both.

mod clock;
#[allow(dead_code)] // a list is all that is asked for here
mod exported;

use clock::{median, time};
use plain::facts::GLOBAL;
use plain::lent::leaks::RECORD;
use plain::lent::reply::list_reply;
use plain::lent::slices::Slices;
use plain::limits::{Number, MOST_ROOM, PIN_NUMBERS, REFERENCE_NUMBERS};
use plain::random::Random;
use plain::room::{Room, LENT};
use std::hint::black_box;
use std::process::ExitCode;

/// The room that the program lends, and the most rows that count as room.
const ROOMS: [Room; 2] = [
    LENT,
    Room {
        references: MOST_ROOM,
        pins: MOST_ROOM,
        ..LENT
    },
];
/// The least records that a turn lists, in as many calls as that takes.
const TURN: usize = 500_000;

/// How the making lines stand to the rows.
const ORDERS: [(&str, fn(&mut [Number])); 3] = [
    ("rising", |_| ()),
    ("falling", |lines| lines.reverse()),
    ("shuffled", |lines| {
        let mut random = Random::new(1);
        for index in 0..lines.len() {
            lines.swap(index, random.below(lines.len()));
        }
    }),
];

fn main() -> ExitCode {
    let mut arguments = std::env::args().skip(1);
    let rounds = match (arguments.next().map(|word| word.parse()), arguments.next()) {
        (Some(Ok(rounds)), None) if rounds > 0 => rounds,
        _ => {
            eprintln!("usage: leaks ROUNDS");
            return ExitCode::from(2);
        }
    };
    println!("the leak list, processor time");
    println!(
        "{:26} {:>21} {:>21}",
        "", "microseconds a call", "ns a record"
    );
    println!(
        "{:10} {:>7} {:>7} {:>10} {:>10} {:>10} {:>10} {:>6}",
        "lines", "globals", "buffers", "proved", "plain", "proved", "plain", "ratio"
    );
    for room in ROOMS {
        for (name, order) in ORDERS {
            let mut slices = leaking(room, order);
            let (references, pins) = (room.references, room.pins);
            let leaks = references + pins;
            if let Err(difference) = compare(&mut slices, leaks) {
                println!("the lists of {leaks} leaks, {name}, differ: {difference}");
                return ExitCode::FAILURE;
            }
            let (proved, plain) = times(&mut slices, leaks, rounds);
            let a_record = leaks as f64;
            println!(
                "{name:10} {references:7} {pins:7} {:10.1} {:10.1} {:10.1} {:10.1} {:6.2}",
                proved / 1e3,
                plain / 1e3,
                proved / a_record,
                plain / a_record,
                proved / plain
            );
        }
    }
    ExitCode::SUCCESS
}

/// Closed tables with a global in every reference row and a buffer in every pin row, made by turns as long as there are both.
fn leaking(room: Room, order: fn(&mut [Number])) -> Slices {
    let (references, pins) = (room.references, room.pins);
    let mut slices = Slices::new(room);
    slices.step(b"Z\n").expect("a line");
    let both = references.min(pins);
    let rows = (0..both).flat_map(|row| [(true, row), (false, row)]);
    let rest = (both..references).map(|row| (true, row));
    let rest = rest.chain((both..pins).map(|row| (false, row)));
    let mut lines: Vec<Number> = (1..).take(references + pins).collect();
    order(&mut lines);
    for ((is_reference, row), line) in rows.chain(rest).zip(lines) {
        let value = 4 * row as Number + GLOBAL;
        if is_reference {
            let rows = slices.rows.as_chunks_mut::<REFERENCE_NUMBERS>().0;
            rows[row] = [0, value, 0, line, 0];
        } else {
            let rows = slices.pins.as_chunks_mut::<PIN_NUMBERS>().0;
            rows[row] = [0, 0, value, line];
        }
    }
    slices.marks.fill(u64::MAX);
    slices.pin_marks.fill(u64::MAX);
    slices
}

/// Both lists, number by number; what first differs.
fn compare(slices: &mut Slices, leaks: usize) -> Result<(), String> {
    let mut wanted_list = vec![0; leaks * RECORD];
    let mut list = wanted_list.clone();
    let wanted = list_reply(slices.list_leaks(&mut wanted_list));
    let given = exported::leaks(slices.lend(), &mut list);
    if wanted != leaks as i32 || given != wanted {
        return Err(format!("the reply is {given}, the plain one {wanted}"));
    }
    match list
        .iter()
        .zip(&wanted_list)
        .position(|(number, wanted)| number != wanted)
    {
        Some(at) => Err(format!(
            "number {at} is {}, not {}",
            list[at], wanted_list[at]
        )),
        None => Ok(()),
    }
}

/// The nanoseconds a call takes the proved and the plain list, medians of so many rounds, in which they take turns.
fn times(slices: &mut Slices, leaks: usize, rounds: usize) -> (f64, f64) {
    let calls = TURN.div_ceil(leaks);
    let mut list = vec![0; leaks * RECORD];
    let mut taken = (Vec::new(), Vec::new());
    for _ in 0..rounds {
        let proved = time(|| {
            for _ in 0..calls {
                black_box(exported::leaks(black_box(slices.lend()), &mut list));
                black_box(&list);
            }
        });
        let plain = time(|| {
            for _ in 0..calls {
                let _ = black_box(black_box(&mut *slices).list_leaks(&mut list));
                black_box(&list);
            }
        });
        taken.0.push(proved / calls as f64);
        taken.1.push(plain / calls as f64);
    }
    (median(taken.0), median(taken.1))
}
