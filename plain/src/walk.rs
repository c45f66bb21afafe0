//! The walk: traces that show all facts of each function, which buffers each release ends, what each byte is, how deep a
//! thread may go, a long chain of classes, attached threads, identities, that twins are told apart, and how long a line and how great a number may be.

mod attached;
mod identities;

use crate::class::{FIRST_DECLARED, OBJECT, STRING};
use crate::facts::*;
use crate::form::FORMS;
use crate::limits::{Field, Handle, MOST_BYTES, MOST_FRAMES, MOST_HANDLES, MOST_ITEMS};
use crate::line;
use crate::make::Made;
use crate::refusal::OUT_OF_RANGE;
use crate::room::LENT;
use crate::twin::{ADDRESS, HIGH};

/// After these lines a local 5, a global 6 and a weak 7 are alive, stated to be a class, a string and a throwable.
const OPENING: [&str; 8] = [
    "N 1 100 5",
    "C 1 100 21 5 0 0 0",
    "R 1 21 6 0",
    "C 1 100 226 5 0 0 0",
    "R 1 226 7 0",
    "O 1 5 2",
    "O 1 6 3",
    "O 1 7 4",
];
/// Null, an identity, a local and a global that are not alive; then those that are, which a delete may end.
const VALUES: [Handle; 7] = [0, 8, 9, 10, 5, 6, 7];
/// A local, a global, a weak and an identity, each of which may be a buffer or a status too; a status alone is below zero.
const RESULTS: [Field; 5] = [1_001, 1_002, 1_003, 1_004, -1];
/// A critical region with an exception pending.
const REGION: [&str; 2] = ["C 1 100 222 5 0 0 0", "R 1 222 8000 1"];
/// A function that takes a string.
const GET_STRING_LENGTH: u32 = 164;
/// A function that takes a throwable.
const THROW: u32 = 13;
/// Those that make a handle of each kind, one that gives an identity and one that takes it.
const NEW_LOCAL_REF: u32 = 25;
const NEW_GLOBAL_REF: u32 = 21;
const NEW_WEAK_GLOBAL_REF: u32 = 226;
const GET_METHOD_ID: u32 = 33;
const CALL_VOID_METHOD: u32 = 61;
/// The classes of the long chain.
const CHAIN: u32 = 40;

/// Of each function a trace that is accepted and one for each line that must be refused; a trace of each release; of each byte
/// three lines, in which it stands for a letter, for a digit and for the tab between two fields; of each letter a line of one
/// number too many, all out of range; traces to the deepest; a long chain of classes; attached threads; identities; twins; for each field a line with each of the great numbers; the longest
/// lines.
pub fn walk() -> Vec<Made> {
    let mut walk = Vec::new();
    for function in FIRST_FUNCTION..=LAST_FUNCTION {
        walk.push(made(format!("function {function}"), &accepted(function)));
        for line in refused(function) {
            walk.push(made(format!("function {function}: {line}"), &[line]));
        }
    }
    for (_, release) in FAMILIES {
        walk.push(made(format!("release {release}"), &releases(release)));
    }
    for byte in 0..=u8::MAX {
        walk.push(of_bytes(format!("letter {byte}"), vec![byte, b'\n']));
        let digit = [b"X\t1", &[byte][..], b"\t0\n"].concat();
        walk.push(of_bytes(format!("digit {byte}"), digit));
        let parting = [b"X\t1", &[byte][..], b"0\n"].concat();
        walk.push(of_bytes(format!("parting {byte}"), parting));
    }
    for form in &FORMS {
        let line = form.name().to_string() + &" -1".repeat(form.most() + 1);
        walk.push(made(format!("count {}", form.name()), &[line]));
    }
    for (what, lines) in deep() {
        walk.push(made(format!("deep {what}"), &lines));
    }
    walk.push(made("chain".to_string(), &chain()));
    for (what, lines) in attached::attached() {
        walk.push(made(format!("attached {what}"), &lines));
    }
    for (what, lines) in identities::identities() {
        walk.push(made(format!("identities {what}"), &lines));
    }
    for half in [HIGH, ADDRESS / HIGH * HIGH, Handle::MAX - (HIGH - 1)] {
        walk.push(made(format!("twins {half}"), &twins(half)));
    }
    for line in great() {
        walk.push(made(format!("great {line}"), &[line]));
    }
    for line in long() {
        walk.push(made(format!("long {}", line.len()), &[line]));
    }
    walk
}

/// Calls with each value in all places that are used, results of each kind that there may be, whether a class is stated of a
/// result, and a call in the region.
fn accepted(function: u32) -> Vec<String> {
    let facts = known(function);
    let used = facts.places.map(|kind| kind != PlaceKind::Unused);
    let results = results(function);
    let values = if used.contains(&true) {
        VALUES.len()
    } else {
        1
    };
    let mut lines = owned(&OPENING);
    for index in 0..values.max(results.len()) {
        let places = used.map(|used| if used { VALUES[index] } else { 0 });
        lines.push(call(function, places, facts.uses_capacity.into()));
        lines.push(answer(function, results.get(index).copied().unwrap_or(0)));
    }
    // Which are alive now; of the results one, if there is any.
    let result = results.first().map_or(0, |&result| line::made(result));
    for places in [[5, 6, 0], [7, result, 0]] {
        lines.push(call(IS_SAME_OBJECT, places, 0));
        lines.push(answer(IS_SAME_OBJECT, 0));
    }
    if let ResultKind::Local | ResultKind::Global | ResultKind::Weak = facts.result {
        for function in [GET_STRING_LENGTH, THROW] {
            lines.push(call(function, [result, 0, 0], 0));
            lines.push(answer(function, 0));
        }
    }
    lines.extend(owned(&REGION));
    lines.push(call(function, [0; 3], 0));
    lines.push(answer(function, 0));
    lines.push("Z".to_string());
    lines
}

/// A number in each unused place or as an unused capacity, and results of each kind that there may not be.
fn refused(function: u32) -> Vec<String> {
    let facts = known(function);
    let mut lines = Vec::new();
    for (place, kind) in facts.places.into_iter().enumerate() {
        if kind == PlaceKind::Unused {
            let mut places = [0; 3];
            places[place] = 5;
            lines.push(call(function, places, 0));
        }
    }
    if !facts.uses_capacity {
        lines.push(call(function, [0; 3], 1));
    }
    let results = results(function);
    for result in RESULTS {
        // Below zero is tried only where it tells a buffer from a status.
        if !results.contains(&result) && (result > 0 || results.len() == RESULTS.len() - 1) {
            lines.push(answer(function, result));
        }
    }
    lines
}

/// A buffer of each family, and the release called with each of them.
fn releases(release: u32) -> Vec<String> {
    let mut lines = owned(&OPENING[..1]);
    for ((get, _), buffer) in FAMILIES.into_iter().zip(8_000..) {
        lines.push(call(get, [5, 0, 0], 0));
        lines.push(answer(get, buffer));
    }
    for (_, buffer) in FAMILIES.into_iter().zip(8_000..) {
        lines.push(call(release, [5, buffer, 0], 0));
        lines.push(answer(release, 0));
    }
    lines.push("Z".to_string());
    lines
}

/// Open items, or frames, as many as a thread may have, and one more.
fn deep() -> [(&'static str, Vec<String>); 3] {
    let enter = || "N 1 100".to_string();
    let open = || call(FIRST_FUNCTION, [0; 3], 0);
    let push = |_| {
        [
            call(PUSH_LOCAL_FRAME, [0; 3], 0),
            answer(PUSH_LOCAL_FRAME, 0),
        ]
    };
    let items = (0..MOST_ITEMS / 2).flat_map(|_| [enter(), open()]);
    let frames: Vec<String> = [enter()]
        .into_iter()
        .chain((1..MOST_FRAMES).flat_map(push))
        .collect();
    [
        ("items", items.chain([enter()]).collect()),
        ("frames", [frames.clone(), push(0).to_vec()].concat()),
        ("native", [frames, vec![open(), enter()]].concat()),
    ]
}

/// Classes each below the one before it, from a string down, and handles of the last, of the first, and of one beside it.
fn chain() -> Vec<String> {
    let first = FIRST_DECLARED;
    let last = first + CHAIN - 1;
    let mut lines = vec!["N 1 100 5 9 13".to_string(), format!("K {first} {STRING}")];
    lines.extend((first..last).map(|class| format!("K {} {class}", class + 1)));
    lines.push(format!("K {} {OBJECT}", last + 1));
    for (handle, class) in [(5, last), (9, first), (13, last + 1)] {
        lines.push(format!("O 1 {handle} {class}"));
        lines.push(call(GET_STRING_LENGTH, [handle, 0, 0], 0));
        lines.push(answer(GET_STRING_LENGTH, 0));
    }
    lines.push(call(THROW, [5, 0, 0], 0));
    lines
}

/// Envs, handles and buffers beside others that differ from them in this high half alone: each is used, stated, ended or released while the other is
/// alive or outstanding, and made beside it. A nonzero number whose low half is 0 is not null.
fn twins(half: Handle) -> Vec<String> {
    let other = 100 + half;
    let mut lines = owned(&OPENING);
    let mut call = |function, places, result| {
        lines.push(call(function, places, 0));
        lines.push(answer(function, result));
    };
    // Not alive as long as only its twin is; then both are, and the twin is ended.
    for (kind, make, end) in [
        (LOCAL, NEW_LOCAL_REF, DELETE_LOCAL_REF),
        (GLOBAL, NEW_GLOBAL_REF, DELETE_GLOBAL_REF),
        (WEAK, NEW_WEAK_GLOBAL_REF, DELETE_WEAK_GLOBAL_REF),
    ] {
        let (one, twin) = (4 + kind, 4 + kind + half);
        call(IS_SAME_OBJECT, [one, twin, 0], 0);
        call(end, [twin, 0, 0], 0);
        call(make, [one, 0, 0], twin.into());
        call(IS_SAME_OBJECT, [one, twin, 0], 0);
        call(end, [one, 0, 0], 0);
        call(IS_SAME_OBJECT, [one, twin, 0], 0);
        call(make, [twin, 0, 0], one.into());
        call(end, [twin, 0, 0], 0);
    }
    for family in [0, FIRST_CRITICAL as u8].map(Family) {
        let (get, release) = (family.get(), family.release());
        call(get, [5, 0, 0], 8);
        call(release, [5, 8 + half, 0], 0);
        call(get, [5, 0, 0], (8 + half).into());
        call(release, [5, 8, 0], 0);
        call(release, [5, 8, 0], 0);
        call(release, [5, 8 + half, 0], 0);
        call(get, [5, 0, 0], half.into());
        call(release, [5, 0, 0], 0);
        call(release, [5, half, 0], 0);
    }
    call(GET_METHOD_ID, [5, 0, 0], half.into());
    call(CALL_VOID_METHOD, [5, half, 0], 0);
    call(CALL_VOID_METHOD, [half, 8, 0], 0);
    call(IS_SAME_OBJECT, [half, half, 0], 0);
    lines.push(format!("C 1 {other} {FIRST_FUNCTION} 0 0 0 0"));
    lines.push(answer(FIRST_FUNCTION, 0));
    lines.push(format!("N 2 {other} {} 5", 5 + half));
    lines.push(format!("O 2 {} {STRING}", 5 + half));
    lines.push(format!("C 2 {other} {GET_STRING_LENGTH} 5 0 0 0"));
    lines.push(format!("R 2 {GET_STRING_LENGTH} 0 0"));
    lines.push(format!("X 1 {}", 5 + half));
    lines.push(format!("X 2 {half}"));
    lines.push(format!("N 1 {other}"));
    lines
}

/// Lines with a number about the last of 32 bits, about the last of 64 and of thirty digits in each field.
fn great() -> Vec<String> {
    let numbers = [u32::MAX.into(), Handle::MAX].map(Field::from);
    let numbers = numbers
        .into_iter()
        .flat_map(|last| [last, last + 1, last + 2]);
    let numbers: Vec<String> = numbers.map(|number| number.to_string()).collect();
    let thirty = "100000000000000000000000000005".to_string();
    let mut lines = Vec::new();
    for good in [
        "N 1 100 5",
        "X 1 0",
        "C 1 100 67 5 9 8 0",
        "C 1 100 19 0 0 0 1",
        "R 1 25 5 0",
        "R 1 19 0 0",
        "A 1 100",
        "D 1",
        "K 5 1",
        "O 1 5 2",
        "M 8 1 2 0 0",
    ] {
        let fields: Vec<&str> = good.split(' ').collect();
        for at in 1..fields.len() {
            for number in numbers.iter().chain([&thirty]) {
                let mut fields = fields.clone();
                fields[at] = number;
                lines.push(fields.join(" "));
            }
        }
    }
    lines
}

/// The longest line that can be accepted, and with more digits lines just as long as may be and one byte longer.
fn long() -> Vec<String> {
    let handles = (0..MOST_HANDLES as Handle).map(|index| Handle::MAX - 2 - 4 * index);
    let handles = handles.map(|handle| format!(" {handle}"));
    let longest = format!("N 16 {}{}", Handle::MAX, handles.collect::<String>());
    let with_digits = |length| longest.clone() + &"7".repeat(length - longest.len());
    [longest.len(), MOST_BYTES, MOST_BYTES + 1]
        .map(with_digits)
        .to_vec()
}

/// The results that the function may have.
fn results(function: u32) -> Vec<Field> {
    let read = |result: &Field| line::read(&bytes(&answer(function, *result)));
    let is_result = |result: &Field| read(result) != Err(OUT_OF_RANGE);
    RESULTS.into_iter().filter(is_result).collect()
}

fn call(function: u32, [a, b, c]: [Handle; 3], n: i32) -> String {
    format!("C 1 100 {function} {a} {b} {c} {n}")
}

fn answer(function: u32, result: Field) -> String {
    format!("R 1 {function} {result} 0")
}

fn owned(lines: &[&str]) -> Vec<String> {
    lines.iter().map(|line| line.to_string()).collect()
}

fn made(name: String, lines: &[String]) -> Made {
    of_bytes(name, lines.iter().flat_map(|line| bytes(line)).collect())
}

fn of_bytes(name: String, trace: Vec<u8>) -> Made {
    Made {
        name,
        room: LENT,
        trace,
    }
}

/// A line written with spaces for tabs.
fn bytes(line: &str) -> Vec<u8> {
    (line.replace(' ', "\t") + "\n").into_bytes()
}
