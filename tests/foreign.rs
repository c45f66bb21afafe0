//! Holds the proved judge to the plain one over foreign tables: each reply, the findings, pieces of many lines, the reports of whole traces, the leak lists, every number of every slice and those around it.

mod common;
#[path = "../bench/exported.rs"]
mod exported;
mod pieces;

use common::{ended, shown, Wish};
use plain::coverage::Coverage;
use plain::foreign::{self, a_z, is_over, line, of_list, Foreign};
use plain::lent::book::{CLOSED, WHOLE};
use plain::lent::reply::{list_reply, reply, MOST_NUMBERS, SHORT_FOUND};
use plain::lent::slices::Slices;
use plain::limits::{Number, Word, MOST_CLASSES, MOST_ROOM};
use plain::make::{make, PROFILES};
use plain::random::Random;
use plain::report::report;
use plain::room::Room;
use std::fmt::{self, Display, Formatter};
use std::process::ExitCode;

const USAGE: &str = "usage: foreign [--seed S] [--cases N] [--seconds T]";

/// The numbers before and after each slice, which are nobody's: a row of the book and more.
const GUARD: usize = 300;
/// The most steps of a case, and of one with a great room.
const STEPS: usize = 24;
const GREAT_STEPS: usize = 8;
/// How many of a hundred steps are pieces.
const PIECES: u32 = 15;
/// The leak lists that are asked for after the steps of a case, each in a slice of another length; with a great room, one.
const LISTS: usize = 3;
/// The lines of a long trace, and a report's bytes beyond which its findings are copied in more pieces than one.
const LONG_TRACE: usize = 4_000;
const LONG_REPORT: usize = 4_096;

type Guarded<T> = common::Guarded<T, GUARD>;
/// Six slices, each guarded.
type Tables = Slices<Guarded<Number>, Guarded<Word>>;

/// What came up.
struct Seen {
    steps_and_lists: Coverage,
    /// Steps not taken, as there was no room for the most findings of a line.
    short_found: u64,
    pieces: pieces::Seen,
    /// Whole traces: their reports written, the long ones among them, slices short for them, books short, and class tables short beside whole books.
    reports: u64,
    long_reports: u64,
    short_slices: u64,
    short_books: u64,
    short_classes: u64,
}

impl Seen {
    fn new() -> Seen {
        Seen {
            steps_and_lists: Coverage::of_foreign(),
            short_found: 0,
            pieces: pieces::Seen::new(),
            reports: 0,
            long_reports: 0,
            short_slices: 0,
            short_books: 0,
            short_classes: 0,
        }
    }

    fn is_whole(&self) -> bool {
        let told = [
            self.short_found,
            self.reports,
            self.long_reports,
            self.short_slices,
            self.short_books,
            self.short_classes,
        ];
        self.steps_and_lists.is_whole() && self.pieces.is_whole() && !told.contains(&0)
    }
}

impl Display for Seen {
    fn fmt(&self, out: &mut Formatter) -> fmt::Result {
        write!(out, "{}", self.steps_and_lists)?;
        write!(out, "; short found: {}", self.short_found)?;
        write!(out, "; {}", self.pieces)?;
        write!(out, "; whole traces: reports {}", self.reports)?;
        write!(out, " (long {})", self.long_reports)?;
        write!(out, ", short slices {}", self.short_slices)?;
        write!(out, ", short books {}", self.short_books)?;
        write!(out, ", short class tables {}", self.short_classes)
    }
}

fn main() -> ExitCode {
    let arguments: Vec<String> = std::env::args().skip(1).collect();
    let Some(wish) = Wish::of(&arguments) else {
        eprintln!("{USAGE}");
        return ExitCode::from(2);
    };
    let mut seen = Seen::new();
    let Some(cases) = wish.tried("foreign", |seed| compare(seed, &mut seen)) else {
        return ExitCode::FAILURE;
    };
    ended(
        "foreign",
        cases,
        &seen,
        seen.is_whole(),
        "the proved judge and the plain one",
    )
}

/// Both judges take the same steps over tables of their own, from the same numbers, and list the leaks of what is left; what first differs.
fn compare(seed: u64, seen: &mut Seen) -> Result<(), String> {
    let mut random = Random::new(seed);
    let Foreign {
        profile,
        slices,
        mut lines,
    } = foreign::make(&mut random);
    let is_great = slices.rows.len() + slices.pins.len() > MOST_ROOM;
    let (most, lists) = if is_great {
        (GREAT_STEPS, 1)
    } else {
        (STEPS, LISTS)
    };
    let mut plain = Slices {
        rows: Guarded::new(slices.rows, &mut random),
        marks: Guarded::new(slices.marks, &mut random),
        pins: Guarded::new(slices.pins, &mut random),
        pin_marks: Guarded::new(slices.pin_marks, &mut random),
        book: Guarded::new(slices.book, &mut random),
        classes: Guarded::new(slices.classes, &mut random),
    };
    let mut proved = plain.clone();
    let steps = if random.percent(20) {
        0
    } else {
        1 + random.below(most)
    };
    for number in 1..=steps {
        let (told, same) = if random.percent(4) {
            plain.start();
            exported::start(proved.lend());
            seen.steps_and_lists.add_start();
            ("a start".to_string(), Ok(()))
        } else if random.percent(3) {
            let same = compare_reports(&mut plain, &mut proved, seen, &mut random)
                .and_then(|()| compare_lists(&mut plain, &mut proved, seen, &mut random));
            ("a whole trace".to_string(), same)
        } else if random.percent(PIECES) {
            let (seen, random) = (&mut seen.pieces, &mut random);
            let same = pieces::compare(&mut plain, &mut proved, &mut lines, seen, random);
            ("a piece".to_string(), same)
        } else if random.percent(5) {
            let same = compare_lists(&mut plain, &mut proved, seen, &mut random);
            ("a leak list".to_string(), same)
        } else {
            let line = line(&plain.tables(), &mut lines, &mut random);
            let same = compare_replies(&mut plain, &mut proved, &line, seen, &mut random);
            (shown(&line), same)
        };
        same.and_then(|()| compare_slices(&proved, &plain))
            .map_err(|what| format!("tables {profile}, step {number}, {told}: {what}"))?;
        if is_over(&plain.tables()) && random.percent(40) {
            break;
        }
    }
    if random.percent(70) {
        let closed = a_z(&mut random);
        for tables in [&mut plain, &mut proved] {
            if let Some(number) = tables.book.get_mut(CLOSED) {
                *number = closed;
            }
        }
    }
    for _ in 0..lists {
        compare_lists(&mut plain, &mut proved, seen, &mut random)
            .and_then(|()| compare_slices(&proved, &plain))
            .map_err(|what| format!("tables {profile}, a leak list after {steps} steps: {what}"))?;
    }
    Ok(())
}

/// Takes both steps and holds the reply and the findings of the proved one to those of the plain one.
fn compare_replies(
    plain: &mut Tables,
    proved: &mut Tables,
    line: &[u8],
    seen: &mut Seen,
    random: &mut Random,
) -> Result<(), String> {
    let length = if random.percent(90) {
        MOST_NUMBERS + random.below(6)
    } else {
        random.below(MOST_NUMBERS)
    };
    let mut wanted_found = Guarded::new(vec![7; length], random);
    let mut found = wanted_found.clone();
    let step = || {
        seen.steps_and_lists.look(&plain.tables(), line);
        let stepped = plain.step(line);
        seen.steps_and_lists.add(&plain.tables(), line, &stepped);
        stepped
    };
    let wanted = reply(step, &mut wanted_found);
    seen.short_found += u64::from(wanted == SHORT_FOUND);
    let wanted_line = Guarded::new(line.to_vec(), random);
    let line = wanted_line.clone();
    let given = exported::step(&line, proved.lend(), &mut found);
    if given != wanted {
        return Err(format!("the reply is {given}, not {wanted}"));
    }
    found.compare("found", &wanted_found)?;
    line.compare("line", &wanted_line)
}

/// Both judge a made trace over the tables; the proved report is held to the plain one, and the bytes behind it, or all where the slice is short, to what was there.
fn compare_reports(
    plain: &mut Tables,
    proved: &mut Tables,
    seen: &mut Seen,
    random: &mut Random,
) -> Result<(), String> {
    let tables = plain.tables();
    let room = Room {
        references: tables.references.rows.room(),
        pins: tables.pins.rows.room(),
        identities: tables.identities.room(),
    };
    let profile = &PROFILES[random.below(PROFILES.len())];
    let (fewest, most) = profile.usual_lines;
    let lines = if random.percent(6) {
        LONG_TRACE
    } else {
        random.between(fewest, most) as usize
    };
    let trace = make(profile, random.number(), lines, room);
    let report = report(&trace, room);
    let length = match random.below(4) {
        0 => report.len(),
        1 => report.len() + random.below(300),
        2 => report.len() - 1,
        _ => random.below(report.len()),
    };
    let mut wanted_out = Guarded::new(vec![b'.'; length], random);
    let mut out = wanted_out.clone();
    let wanted = if plain.book.len() < WHOLE {
        seen.short_books += 1;
        0
    } else if plain.classes.len() < MOST_CLASSES {
        seen.short_classes += 1;
        0
    } else {
        plain.start();
        let mut lines = trace.split_inclusive(|&byte| byte == b'\n');
        while lines.next().is_some_and(|line| plain.step(line).is_ok()) {}
        if report.len() <= length {
            wanted_out[..report.len()].copy_from_slice(&report);
            seen.reports += 1;
            seen.long_reports += u64::from(report.len() > LONG_REPORT);
        } else {
            seen.short_slices += 1;
        }
        report.len()
    };
    let wanted_trace = Guarded::new(trace, random);
    let trace = wanted_trace.clone();
    let given = exported::judge(&trace, proved.lend(), &mut out);
    if given != wanted {
        return Err(format!("the report has {given} bytes, not {wanted}"));
    }
    out.compare("out", &wanted_out)?;
    trace.compare("trace", &wanted_trace)
}

/// Both list the leaks of the tables; the proved list is held to the plain one, and the numbers behind it, or all where it is refused, to what was there.
fn compare_lists(
    plain: &mut Tables,
    proved: &mut Tables,
    seen: &mut Seen,
    random: &mut Random,
) -> Result<(), String> {
    let leaks = plain.tables().leaks();
    let length = of_list(random, leaks.as_ref().map_or(0, Vec::len));
    let any = (0..length).map(|_| random.number()).collect();
    let mut wanted_list = Guarded::new(any, random);
    let mut list = wanted_list.clone();
    let listed = plain.list_leaks(&mut wanted_list);
    seen.steps_and_lists.add_list(&listed.and(leaks));
    let wanted = list_reply(listed);
    let given = exported::leaks(proved.lend(), &mut list);
    if given != wanted {
        let length = list.len();
        return Err(format!(
            "the reply to a list of {length} numbers is {given}, not {wanted}"
        ));
    }
    list.compare("list", &wanted_list)
}

/// The first number of the first slice that is not the wanted one.
fn compare_slices(given: &Tables, wanted: &Tables) -> Result<(), String> {
    given.rows.compare("rows", &wanted.rows)?;
    given.marks.compare("marks", &wanted.marks)?;
    given.pins.compare("pins", &wanted.pins)?;
    given.pin_marks.compare("pin marks", &wanted.pin_marks)?;
    given.book.compare("book", &wanted.book)?;
    given.classes.compare("classes", &wanted.classes)
}
