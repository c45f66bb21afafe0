//! The walk over identities: what each function says to each statement, when a statement counts, and where M is in step.

use super::attached::TOPS;
use super::{answer, call, owned, CALL_VOID_METHOD, GET_METHOD_ID};
use crate::facts::*;
use crate::limits::Handle;
use crate::twin::HIGH;

/// A field that is read and one that is written.
const GET_INT_FIELD: u32 = 100;
const SET_INT_FIELD: u32 = 109;
/// The functions that give identities.
const GIVEN_BY: [u32; 6] = [7, 8, 33, 94, 113, 144];

pub fn identities() -> Vec<(String, Vec<String>)> {
    let of_function = |function| (format!("of {function}"), fits(function));
    let mut all: Vec<(String, Vec<String>)> = WITH_IDENTITY.into_iter().map(of_function).collect();
    all.extend(of_fields());
    all.extend(in_step());
    all.extend(of_classes());
    all.push(("given".to_string(), given()));
    all.push(("kept".to_string(), kept()));
    all.push(("beside".to_string(), beside()));
    all.push(("twins".to_string(), twins()));
    all
}

/// An identity that is not stated, then stated in each way, one after another, with what hides it between.
fn fits(function: u32) -> Vec<String> {
    let mut lines = owned(&["N 1 100 5"]);
    let used = |lines: &mut Vec<String>, identity| {
        lines.push(call(function, with(function, identity), 0));
        lines.push(answer(function, 0));
    };
    used(&mut lines, 8);
    for sort in 1..=2 {
        for is_static in 0..=1 {
            for is_final in 0..=1 {
                lines.push(format!("M 8 {sort} 1 {is_static} {is_final}"));
                used(&mut lines, 8);
                used(&mut lines, 12);
            }
        }
    }
    for hiding in [0, 5, 6, 7, 9] {
        used(&mut lines, hiding);
    }
    lines.push("Z".to_string());
    lines
}

/// The places of a call with a local alive where handles stand.
fn with(function: u32, identity: Handle) -> [Handle; 3] {
    known(function).places.map(|kind| match kind {
        PlaceKind::Unused => 0,
        PlaceKind::Identity(_) => identity,
        _ => 5,
    })
}

/// M with each number about the ends of its range in each field.
fn of_fields() -> Vec<(String, Vec<String>)> {
    let fields: [(&[i64], &str); 5] = [
        (&[-4, -1, 0, 1, 2, 3, 4, 5], "M _ 1 1 0 0"),
        (&[-1, 0, 1, 2, 3], "M 8 _ 1 0 0"),
        (&[-1, 0, 1, 4_095, 4_096], "M 8 1 _ 0 0"),
        (&[-1, 0, 1, 2], "M 8 1 1 _ 0"),
        (&[-1, 0, 1, 2], "M 8 1 1 0 _"),
    ];
    let lines = fields.into_iter().flat_map(|(numbers, line)| {
        let with = |number: &i64| line.replace('_', &number.to_string());
        numbers.iter().map(with)
    });
    lines.map(|line| (line.clone(), vec![line])).collect()
}

/// M over each top of thread 1, good and of an unknown class.
fn in_step() -> Vec<(String, Vec<String>)> {
    let over = |(top, before): (&str, &[&str])| {
        let before = owned(before);
        ["M 8 1 1 0 0", "M 8 1 9 0 0"].map(|line| {
            let name = format!("{line} over {top}");
            (name, [&before[..], &owned(&[line])].concat())
        })
    };
    TOPS.into_iter().flat_map(over).collect()
}

/// Classes reserved, declared and not.
fn of_classes() -> Vec<(String, Vec<String>)> {
    let mut all = Vec::new();
    for class in [1, 2, 3, 4, 5, 6, 4_095] {
        for declared in [4, 5, 4_095] {
            let before = match declared {
                4 => Vec::new(),
                class => vec![format!("K {class} 3")],
            };
            let line = format!("M 8 1 {class} 0 0");
            let name = format!("{line} after {declared}");
            all.push((name, [before, vec![line]].concat()));
        }
    }
    all
}

/// What functions give is not stated by that, nor restated.
fn given() -> Vec<String> {
    let mut lines = owned(&["N 1 100 5"]);
    for (function, identity) in GIVEN_BY.into_iter().zip((8..).step_by(4)) {
        for statement in [None, Some(format!("M {identity} 1 1 0 0"))] {
            lines.extend(statement);
            lines.push(call(function, [5, 0, 0], 0));
            lines.push(answer(function, identity.into()));
            lines.push(call(CALL_VOID_METHOD, [5, identity, 0], 0));
            lines.push(answer(CALL_VOID_METHOD, 0));
        }
    }
    lines
}

/// Statements of a thread's native, used by another, by an attached one and after all have gone; the last counts from its line on.
fn kept() -> Vec<String> {
    let used = |thread: u32, function: u32| {
        [
            format!("C {thread} {thread}00 {function} 5 8 0 0"),
            format!("R {thread} {function} 0 0"),
        ]
    };
    let mut lines = owned(&["N 1 100 5", "M 8 2 1 0 0", "N 2 200 5", "A 3 300"]);
    lines.extend(owned(&["C 3 300 25 0 0 0 0", "R 3 25 5 0"]));
    for thread in 1..=3 {
        lines.extend(used(thread, GET_INT_FIELD));
    }
    lines.extend(owned(&["C 2 200 61 5 8 0 0", "M 8 1 1 0 0", "R 2 61 0 0"]));
    lines.extend(used(3, CALL_VOID_METHOD));
    lines.extend(owned(&["M 8 2 1 0 1", "X 1 0", "X 2 0", "D 3"]));
    lines.extend(owned(&["N 2 200 5", "N 1 100 5"]));
    lines.extend(used(1, GET_INT_FIELD));
    lines.extend(used(2, SET_INT_FIELD));
    lines.extend(owned(&["M 8 2 1 0 0", "M 12 2 1 0 1"]));
    lines.extend(used(1, SET_INT_FIELD));
    lines.push("Z".to_string());
    lines
}

/// Rules 5 and 6 beside those of the whole line, of the other places and of the class.
fn beside() -> Vec<String> {
    let mut lines = owned(&["N 1 100 5", "O 1 5 3", "M 8 2 1 0 1", "M 12 2 1 1 1"]);
    for places in [[0, 4, 0], [9, 8, 8], [5, 8, 9], [8, 12, 13], [9, 4, 9]] {
        for function in [104, 154, 64] {
            let [a, b, c] = places;
            let [b, c] = if function == 64 { [a, b] } else { [b, c] };
            lines.push(call(function, [a, b, c], 0));
            lines.push(answer(function, 0));
        }
    }
    lines.extend(owned(&["C 1 100 222 5 0 0 0", "R 1 222 40 1"]));
    lines.push("C 1 101 104 5 8 0 0".to_string());
    lines.push(answer(104, 0));
    lines.push(call(GET_METHOD_ID, [5, 0, 0], 0));
    lines
}

/// Identities whose twins alone are stated, or are stated otherwise, the greatest, and one whose low half is 0.
fn twins() -> Vec<String> {
    let greatest = Handle::MAX - 3;
    let mut lines = owned(&["N 1 100 5"]);
    for (identity, sort) in [
        (8 + HIGH, 1),
        (12, 1),
        (12 + HIGH, 2),
        (HIGH, 1),
        (greatest, 1),
    ] {
        lines.push(format!("M {identity} {sort} 1 0 0"));
    }
    for identity in [8, 8 + HIGH, 12, 12 + HIGH, HIGH, greatest, greatest % HIGH] {
        lines.push(call(CALL_VOID_METHOD, [5, identity, 0], 0));
        lines.push(answer(CALL_VOID_METHOD, 0));
    }
    lines
}
