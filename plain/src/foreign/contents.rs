//! What foreign tables hold: any numbers, numbers that fit each other in part, or what a judge left with some numbers changed.

use super::classes;
use super::crowd::crowd;
use super::identities;
use super::lengths::{great, of_book, of_classes, of_rows};
use crate::facts::{FIRST_FUNCTION, GLOBAL, LAST_FUNCTION, LOCAL, PUSH_LOCAL_FRAME, WEAK};
use crate::lent::book::*;
use crate::lent::references::{Reference, CLASS, HANDLE};
use crate::lent::rows::{LINE, WORD};
use crate::lent::slices::Slices;
use crate::limits::*;
use crate::make;
use crate::random::Random;
use crate::room::Room;
use crate::twin::{twin_of, HIGH};

/// Tables, and lines of a trace that may follow.
#[derive(Clone, Debug)]
pub struct Foreign {
    pub profile: &'static str,
    pub slices: Slices,
    pub lines: Vec<Vec<u8>>,
}

pub fn make(random: &mut Random) -> Foreign {
    let mut lines = Vec::new();
    let (profile, slices) = match random.below(100) {
        0..4 => ("nothing", nothing()),
        4..10 => ("wild", wild(random)),
        10..59 => ("small", small(random)),
        59 => ("full", full(random)),
        60..65 => ("started", started(random)),
        _ => ("damaged", damaged(random, &mut lines)),
    };
    Foreign {
        profile,
        slices,
        lines,
    }
}

/// Six empty slices.
fn nothing() -> Slices {
    Slices {
        rows: Vec::new(),
        marks: Vec::new(),
        pins: Vec::new(),
        pin_marks: Vec::new(),
        book: Vec::new(),
        classes: Vec::new(),
    }
}

/// Any numbers.
fn wild(random: &mut Random) -> Slices {
    let mut slices = lengths(random);
    let numbers = slices.rows.iter_mut().chain(&mut slices.pins);
    for number in numbers.chain(&mut slices.classes) {
        *number = random.number();
    }
    let words = slices.marks.iter_mut().chain(&mut slices.pin_marks);
    for number in words.chain(&mut slices.book) {
        *number = random.number();
    }
    slices
}

/// Small numbers, so that counts, tops, threads and handles meet; the book is mostly fit.
fn small(random: &mut Random) -> Slices {
    let mut slices = lengths(random);
    let threads = random.pick(&[1, 2, 4, THREADS]);
    fill(&mut slices.rows, || small_reference(random, threads));
    fill(&mut slices.pins, || small_pin(random, threads));
    if random.percent(15) {
        crowd(slices.rows.as_chunks_mut().0);
    }
    small_classes(random, &mut slices.classes);
    twin_columns(random, &mut slices);
    some_marks(random, &mut slices.marks);
    some_marks(random, &mut slices.pin_marks);
    small_book(random, &mut slices.book, threads);
    if random.percent(15) && slices.book.len() >= WHOLE {
        spoil_book(random, &mut slices.book);
    }
    slices
}

/// About as many rows as a room can have, all of them used but some at its end.
fn full(random: &mut Random) -> Slices {
    let mut slices = Slices::new(Room {
        references: great(random),
        pins: great(random),
        identities: random.below(20),
    });
    let mut global = [0; REFERENCE_NUMBERS];
    global[HANDLE] = GLOBAL;
    fill(&mut slices.rows, || global);
    lines_in_order::<REFERENCE_NUMBERS>(random, &mut slices.rows);
    lines_in_order::<PIN_NUMBERS>(random, &mut slices.pins);
    let rows = slices.rows.len() - 8 * REFERENCE_NUMBERS;
    fill(&mut slices.rows[rows..], || small_reference(random, 2));
    let pins = slices.pins.len() - 8 * PIN_NUMBERS;
    fill(&mut slices.pins[pins..], || small_pin(random, 2));
    for marks in [&mut slices.marks, &mut slices.pin_marks] {
        marks.fill(Word::MAX);
        let last = marks.len() - 1;
        marks[last - 1] >>= random.below(5);
        marks[last] = random.number();
    }
    small_classes(random, &mut slices.classes);
    small_book(random, &mut slices.book, 2);
    slices
}

/// Lengths of every sort, and a start over any numbers.
fn started(random: &mut Random) -> Slices {
    let mut slices = wild(random);
    slices.start();
    slices
}

/// What the step leaves of a trace from a start, with some numbers changed; the rest of the trace may follow.
fn damaged(random: &mut Random, follow: &mut Vec<Vec<u8>>) -> Slices {
    let mut slices = traced(random, follow);
    for _ in 0..random.below(7) {
        match random.below(15) {
            0 => damage_row(random, &mut slices.rows),
            9 | 10 => damage_class(random, &mut slices.rows),
            11 | 12 => classes::damage(random, split(&mut slices.classes).0),
            13 | 14 => identities::damage(random, split(&mut slices.classes).1),
            1 => damage_row(random, &mut slices.pins),
            2 => damage_marks(random, &mut slices.marks),
            3 => damage_marks(random, &mut slices.pin_marks),
            _ => damage_book(random, &mut slices.book),
        }
    }
    twin_columns(random, &mut slices);
    slices
}

/// Tables from a start and some lines of a made trace; the rest of the trace may follow.
fn traced(random: &mut Random, follow: &mut Vec<Vec<u8>>) -> Slices {
    let mut slices = lengths(random);
    slices.book.resize(WHOLE, 0);
    slices
        .classes
        .resize(slices.classes.len().max(MOST_CLASSES), 0);
    let tables = slices.tables();
    let room = Room {
        references: tables.references.rows.room(),
        pins: tables.pins.rows.room(),
        identities: tables.identities.room(),
    };
    let profile = &make::PROFILES[random.below(make::PROFILES.len())];
    let lines = random.between(2, 120) as usize;
    let trace = make::make(profile, random.number(), lines, room);
    let mut lines: Vec<Vec<u8>> = trace
        .split_inclusive(|&byte| byte == b'\n')
        .map(Vec::from)
        .collect();
    *follow = lines.split_off(random.below(lines.len() + 1));
    for line in lines {
        // A refused line leaves the tables as they are.
        let _ = slices.step(&line);
    }
    slices
}

/// Slices of some lengths, every number 0.
fn lengths(random: &mut Random) -> Slices {
    let (rows, marks) = of_rows(random, REFERENCE_NUMBERS);
    let (pins, pin_marks) = of_rows(random, PIN_NUMBERS);
    Slices {
        rows: vec![0; rows],
        marks: vec![0; marks],
        pins: vec![0; pins],
        pin_marks: vec![0; pin_marks],
        book: vec![0; of_book(random)],
        classes: vec![0; of_classes(random)],
    }
}

/// A class table, and identities behind it.
fn small_classes(random: &mut Random, numbers: &mut [Number]) {
    let (supers, behind) = split(numbers);
    classes::small(random, supers);
    identities::small(random, behind);
}

/// The supers as far as they are lent, and the identities behind them.
fn split(numbers: &mut [Number]) -> (&mut [Number], &mut [Number]) {
    numbers.split_at_mut(numbers.len().min(MOST_CLASSES))
}

// ---- rows and marks

/// Fills a slice with rows, the last cut off where the slice ends in it.
fn fill<const NUMBERS: usize>(numbers: &mut [Number], mut row: impl FnMut() -> [Number; NUMBERS]) {
    for lent in numbers.chunks_mut(NUMBERS) {
        lent.copy_from_slice(&row()[..lent.len()]);
    }
}

fn small_number(random: &mut Random) -> u32 {
    random.between(0, 20)
}

fn small_reference(random: &mut Random, threads: u32) -> Reference {
    let frame = match random.below(8) {
        0 => random.pick(&[63, 64, 65, Number::MAX]),
        _ => alike(random, 4),
    };
    let (owner, handle) = (owner(random, threads), alike(random, 60));
    // A handle of any kind may stand in any row; mostly it is one that can be alive there.
    let handle = match owner {
        _ if random.percent(40) => handle,
        0 => handle / 4 * 4 + random.pick(&[GLOBAL, WEAK]),
        _ => handle / 4 * 4 + LOCAL,
    };
    [
        owner,
        handle,
        frame,
        making_line(random),
        classes::stated(random),
    ]
}

fn small_pin(random: &mut Random, threads: u32) -> [Number; PIN_NUMBERS] {
    [
        owner(random, threads),
        alike(random, 13),
        alike(random, 9),
        making_line(random),
    ]
}

/// Making lines that rise from row to row, fall, are all one, or are in no order.
fn lines_in_order<const NUMBERS: usize>(random: &mut Random, numbers: &mut [Number]) {
    let (rows, _) = numbers.as_chunks_mut::<NUMBERS>();
    let order = random.below(4);
    let most = rows.len() as Number;
    for (row, number) in rows.iter_mut().zip(1..) {
        row[LINE] = match order {
            0 => number,
            1 => most - number,
            2 => 7,
            _ => random.number() % most,
        };
    }
}

/// Often one that other rows have.
fn making_line(random: &mut Random) -> Number {
    match random.below(10) {
        0 => random.pick(&[0, Number::from(MOST_LINES), Number::MAX - 1, Number::MAX]),
        1..=3 => alike(random, 60),
        _ => alike(random, 5),
    }
}

/// A number up to the greatest, or sometimes one that is like it in its low bits, mostly its twin.
fn alike(random: &mut Random, greatest: u32) -> Number {
    let number = Number::from(random.between(0, greatest));
    match random.below(100) {
        0..3 => number + random.pick(&[1 << 8, 1 << 16, 1 << 31]),
        3..11 => twin_of(number, random),
        _ => number,
    }
}

/// The thread in a row: none, one of the first so many, or one that there is not, but may be like one in its low bits.
fn owner(random: &mut Random, threads: u32) -> Number {
    match random.below(20) {
        0..=5 => 0,
        6 => random.pick(&[17, 100, Number::MAX]),
        7 => {
            let one = random.between(0, threads).into();
            let twin = twin_of(one, random);
            random.pick(&[one + (1 << 8), one + (1 << 31), twin])
        }
        _ => Number::from(random.between(1, threads)),
    }
}

/// Marks of one density.
fn some_marks(random: &mut Random, marks: &mut [Word]) {
    let chance = random.pick(&[0, 10, 50, 90, 99, 100]);
    for word in marks {
        for bit in 0..WORD {
            *word |= Word::from(random.percent(chance)) << bit;
        }
    }
}

fn damage_row(random: &mut Random, rows: &mut [Number]) {
    if rows.is_empty() {
        return;
    }
    let at = if random.percent(70) {
        random.below(rows.len().min(60))
    } else {
        random.below(rows.len())
    };
    rows[at] = match random.below(5) {
        0 => random.number(),
        1 => rows[at].wrapping_add(random.pick(&[1, Number::MAX])),
        2 => rows[random.below(rows.len())],
        3 => twin_of(rows[at], random),
        _ => Number::from(small_number(random)),
    };
}

/// Mostly nothing, or twins in a column of some rows or places.
fn twin_columns(random: &mut Random, slices: &mut Slices) {
    if random.percent(20) {
        twin_column::<REFERENCE_NUMBERS>(random, &mut slices.rows);
    }
    if random.percent(20) {
        twin_column::<PIN_NUMBERS>(random, &mut slices.pins);
    }
    if random.percent(20) {
        twin_column::<IDENTITY_NUMBERS>(random, split(&mut slices.classes).1);
    }
}

fn twin_column<const NUMBERS: usize>(random: &mut Random, numbers: &mut [Number]) {
    let column = random.below(NUMBERS);
    for row in numbers.as_chunks_mut::<NUMBERS>().0 {
        if random.percent(40) {
            row[column] = twin_of(row[column], random);
        }
    }
}

/// Changes the class of some row, mostly of one of the first.
fn damage_class(random: &mut Random, rows: &mut [Number]) {
    let rows = rows.as_chunks_mut::<REFERENCE_NUMBERS>().0;
    let span = if random.percent(70) { 12 } else { rows.len() };
    if !rows.is_empty() {
        rows[random.below(span.min(rows.len()))][CLASS] = classes::stated(random);
    }
}

fn damage_marks(random: &mut Random, marks: &mut [Word]) {
    if marks.is_empty() {
        return;
    }
    let at = random.below(marks.len());
    match random.below(8) {
        0 => marks[at] = random.pick(&[0, Word::MAX]),
        1 => marks[at] = random.number(),
        _ => marks[at] ^= 1 << random.below(WORD),
    }
}

// ---- the book

/// A book of which most threads could be those of a judge, with other numbers in the cells that nothing should read.
fn small_book(random: &mut Random, book: &mut [Word], threads: u32) {
    let unread = random.below(3);
    for number in book.iter_mut() {
        *number = match unread {
            0 => 0,
            1 => small_number(random).into(),
            _ => random.number(),
        };
    }
    if book.len() < WHOLE {
        return;
    }
    book[LINES] = random.pick(&[
        0,
        0,
        1,
        7,
        1_000,
        Word::from(MOST_LINES) - 2,
        Word::from(MOST_LINES) - 1,
    ]);
    book[CLOSED] = if random.percent(4) { a_z(random) } else { 0 };
    if random.percent(4) {
        book[LINES] = MOST_LINES.into();
    }
    for (number, row) in (0..=THREADS).zip(book.chunks_mut(WIDTH)).skip(1) {
        small_thread(random, row, number, number <= threads);
    }
}

/// A number that says that Z has come.
pub fn a_z(random: &mut Random) -> Word {
    random.pick(&[1, 2, HIGH, Word::MAX])
}

fn small_thread(random: &mut Random, row: &mut [Word], number: u32, is_open: bool) {
    let own = Word::from(100 * number);
    row[ENV] = match random.below(20) {
        0 => random.pick(&[100, 200, 300, 400]),
        1 => HIGH + own,
        2 => random.pick(&[1, Word::from(u32::MAX), HIGH, Word::MAX]),
        3..=6 => 0,
        _ => own,
    };
    row[PENDING] = random.pick(&[0, 0, 0, 0, 1, 1, 2, HIGH + 1, Word::MAX]);
    row[MONITORS] = random.pick(&[0, 0, 0, 1, 2, Word::from(MOST_LINES) - 1, MOST_LINES.into()]);
    let depth = random.pick(&[1, 1, 2, 3, 4, 8, 63, 64]);
    row[FRAMES] = if is_open || random.percent(20) {
        depth
    } else {
        0
    };
    row[ITEMS] = match row[FRAMES] {
        0 => 0,
        63 | 64 if random.percent(40) => 0,
        _ => random.pick(&[0, 1, 1, 2, 2, 3, 4, 8, 63, 64, 64]),
    };
    for index in 0..row[FRAMES] as usize {
        row[CAPACITIES + index] = random.pick(&[0, 1, 2, 3, 16, 16, HIGH, HIGH + 1, Word::MAX]);
        row[PUSHED + index] = random.pick(&[0, 0, 0, 1, 1, 2, HIGH, Word::MAX]);
    }
    for index in 0..MOST_ITEMS {
        row[FUNCTIONS + index] = item_function(random);
        row[ASKED + index] = random.pick(&[
            0,
            0,
            1,
            3,
            16,
            0x7fff_ffff,
            0xffff_ffff,
            HIGH,
            HIGH + 3,
            Word::MAX,
        ]);
    }
    if row[FRAMES] == MOST_FRAMES as Word && row[ITEMS] > 0 && random.percent(40) {
        row[FUNCTIONS + row[ITEMS] as usize - 1] = PUSH_LOCAL_FRAME.into();
    }
    let natives = random.below(row[FRAMES].min(row[ITEMS]) as usize + 1);
    row[NATIVES] = native_marks(random, row[ITEMS] as usize, natives);
    attach(random, row);
}

/// Gives the marked items of a thread functions that make them natives, or attached, or something like that in its low bits; the top item is marked more often.
fn attach(random: &mut Random, row: &mut [Word]) {
    const LIKE: [Word; 7] = [
        OF_NATIVE,
        OF_ATTACHED,
        2,
        4,
        HIGH,
        HIGH + OF_ATTACHED,
        Word::MAX,
    ];
    let functions: &[Word] = random.pick(&[
        &[OF_NATIVE],
        &[OF_NATIVE, OF_NATIVE, OF_ATTACHED],
        &[OF_ATTACHED],
        &LIKE,
    ]);
    for index in 0..MOST_ITEMS {
        if row[NATIVES] >> index & 1 == 1 && random.percent(80) {
            row[FUNCTIONS + index] = random.pick(functions);
        }
    }
    let lowest = row[NATIVES].trailing_zeros() as usize;
    if let Some(top) = (row[ITEMS] as usize)
        .checked_sub(1)
        .filter(|&top| lowest <= top)
    {
        let is_last = top + 1 == MOST_ITEMS;
        if random.percent(if is_last { 70 } else { 30 }) {
            row[NATIVES] = row[NATIVES] & !(1 << lowest) | 1 << top;
        }
        if random.percent(50) {
            let functions = random.pick(&[&[OF_ATTACHED][..], &LIKE]);
            row[FUNCTIONS + top] = random.pick(functions);
        }
    }
}

/// Marks for so many natives among so many open items; above the items anything may stand.
fn native_marks(random: &mut Random, items: usize, mut natives: usize) -> Word {
    let any = random.number();
    let mut marks = random.pick(&[0, any, Word::MAX]);
    for index in 0..items {
        let mark = 1 << index;
        let is_native = random.below(items - index) < natives;
        natives -= usize::from(is_native);
        marks = if is_native {
            marks | mark
        } else {
            marks & !mark
        };
    }
    marks
}

/// The function of an open call, or what is none from a start.
fn item_function(random: &mut Random) -> Word {
    let called = match random.below(3) {
        0 => random.between(FIRST_FUNCTION, LAST_FUNCTION),
        1 => random.pick(&[6, 20, 21, 25, 226, 31, 165, 183, 222, 224]),
        _ => random.pick(&[19, 19, 26, 217, 218]),
    };
    match random.below(20) {
        0 => HIGH * random.pick(&[1, 7, HIGH - 1]) + Word::from(called),
        1 => random.pick(&[0, 1, 3, 233, HIGH, HIGH - 1, Word::MAX]),
        _ => called.into(),
    }
}

/// Gives one thread, or the trace, what makes the book unfit.
fn spoil_book(random: &mut Random, book: &mut [Word]) {
    let row = random.between(1, THREADS) as usize * WIDTH;
    let most = Word::from(MOST_LINES);
    match random.below(6) {
        0 => {
            book[row + FRAMES] = book[row + FRAMES].max(1);
            book[row + ITEMS] = random.pick(&[MOST_ITEMS as Word + 1, HIGH, Word::MAX]);
        }
        1 => book[row + FRAMES] = random.pick(&[65, HIGH, HIGH + 1, Word::MAX]),
        2 => too_many_natives(random, &mut book[row..row + WIDTH]),
        3 => {
            book[row + FRAMES] = 0;
            book[row + NATIVES] = 0;
            book[row + ITEMS] = random.pick(&[1, 2, 64]);
        }
        4 => book[row + MONITORS] = random.pick(&[most + 1, HIGH, Word::MAX]),
        _ => book[LINES] = random.pick(&[most + 1, HIGH, Word::MAX]),
    }
}

/// One native more than frames, among calls.
fn too_many_natives(random: &mut Random, row: &mut [Word]) {
    row[FRAMES] = row[FRAMES].clamp(1, MOST_ITEMS as Word - 1);
    let natives = row[FRAMES] as usize + 1;
    let calls = random.pick(&[0, MOST_ITEMS - natives]);
    let items = natives + random.below(calls + 1);
    row[ITEMS] = items as Word;
    row[NATIVES] = native_marks(random, items, natives);
    attach(random, row);
}

/// Changes a number of the trace or of a thread, the columns with a meaning of their own more often.
fn damage_book(random: &mut Random, book: &mut [Word]) {
    let row = random.between(0, THREADS) as usize * WIDTH;
    let column = match random.below(12) {
        0 => LINES,
        1 => CLOSED,
        2 => ENV,
        3 => PENDING,
        4 => MONITORS,
        5 => FRAMES,
        6 => ITEMS,
        7 => NATIVES,
        8 => CAPACITIES + random.below(4),
        9 => PUSHED + random.below(4),
        10 => FUNCTIONS + random.below(4),
        _ => random.below(WIDTH),
    };
    let at = row + column;
    book[at] = match random.below(5) {
        0 => random.number(),
        1 => book[at].wrapping_add(random.pick(&[1, HIGH, Word::MAX])),
        2 => random.pick(&[
            63,
            64,
            65,
            Word::from(MOST_LINES) - 1,
            Word::from(MOST_LINES),
        ]),
        _ => random.between(0, 3).into(),
    };
}
