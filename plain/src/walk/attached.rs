//! The walk over attached threads: which line may follow which, what envs they bring, how much their frames hold, and what D judges, ends and leaves.

use super::{
    answer, call, owned, GET_STRING_LENGTH, NEW_GLOBAL_REF, NEW_LOCAL_REF, NEW_WEAK_GLOBAL_REF,
};
use crate::class::STRING;
use crate::facts::*;
use crate::limits::{Field, Handle, MOST_FRAMES, MOST_ITEMS, NEW_LOCALS};
use crate::twin::HIGH;

const ATTACH: &str = "A 1 100";
const DETACH: &str = "D 1";
const ENTER: &str = "N 1 100";
const LEAVE: &str = "X 1 0";
const OPEN: &str = "C 1 100 4 0 0 0 0";
const RETURN: &str = "R 1 4 0 0";

/// The get of an ordinary buffer, and the get and the release of a critical one.
const ORDINARY_GET: u32 = FAMILIES[0].0;
const GET: u32 = FAMILIES[FIRST_CRITICAL].0;
const RELEASE: u32 = FAMILIES[FIRST_CRITICAL].1;

/// What thread 1 is in.
pub(super) const TOPS: [(&str, &[&str]); 7] = [
    ("nothing", &[]),
    ("native", &[ENTER]),
    ("attached", &[ATTACH]),
    ("native's call", &[ENTER, OPEN]),
    ("attached's call", &[ATTACH, OPEN]),
    ("native in attached's call", &[ATTACH, OPEN, ENTER]),
    ("closed", &[ATTACH, "Z"]),
];

/// How thread 1 came to its env, open or not.
const ENVS: [&[&str]; 4] = [&[ENTER, LEAVE], &[ATTACH, DETACH], &[ENTER], &[ATTACH]];

/// The two lines that open a thread, and what closes it then.
const OPENINGS: [(&str, &str); 2] = [(ATTACH, DETACH), (ENTER, LEAVE)];

pub fn attached() -> Vec<(String, Vec<String>)> {
    let mut all = in_step();
    all.extend(envs());
    all.extend(after_d());
    all.extend(judged());
    all.extend(deep());
    let mut add = |name: &str, lines| all.push((name.to_string(), lines));
    add("filled", filled());
    add("pops", pops());
    add("pending", pending());
    add("nested", nested());
    all
}

/// Each line over each top.
fn in_step() -> Vec<(String, Vec<String>)> {
    let lines = [ATTACH, DETACH, ENTER, LEAVE, OPEN, RETURN, "Z"];
    let over = |(top, before): (&str, &[&str])| {
        let before = owned(before);
        lines.map(|line| {
            let name = format!("{line} over {top}");
            (name, [&before[..], &owned(&[line])].concat())
        })
    };
    TOPS.into_iter().flat_map(over).collect()
}

/// The same env again, another one, its twin, and each of them by another thread.
fn envs() -> Vec<(String, Vec<String>)> {
    let mut all = Vec::new();
    for before in ENVS {
        for letter in ["N", "A"] {
            for (thread, env) in [
                (1, 100),
                (1, 101),
                (1, 100 + HIGH),
                (2, 100),
                (2, 101),
                (2, 100 + HIGH),
            ] {
                let line = format!("{letter} {thread} {env}");
                let name = format!("{line} after {}", before.join(", "));
                all.push((name, [owned(before), vec![line]].concat()));
            }
        }
    }
    all
}

/// Locals of two frames, with globals, weaks and another thread's locals beside them: which are alive once the thread is open again, and which can be made.
fn after_d() -> Vec<(String, Vec<String>)> {
    let held = [
        owned(&["N 2 200 5 9", ATTACH]),
        calls(&[
            (NEW_LOCAL_REF, 0, 5),
            (NEW_GLOBAL_REF, 0, 6),
            (NEW_WEAK_GLOBAL_REF, 0, 7),
            (PUSH_LOCAL_FRAME, 0, 0),
            (NEW_LOCAL_REF, 0, 9),
        ]),
        owned(&["O 1 9 3", DETACH]),
    ]
    .concat();
    let of_open = |(open, close): (&str, &str)| {
        let used = [
            call(IS_SAME_OBJECT, [5, 9, 0], 0),
            answer(IS_SAME_OBJECT, 0),
            call(IS_SAME_OBJECT, [6, 7, 0], 0),
            answer(IS_SAME_OBJECT, 0),
        ];
        let again = calls(&[(NEW_LOCAL_REF, 0, 9), (GET_STRING_LENGTH, 9, 0)]);
        let others = owned(&["C 2 200 24 5 9 0 0", "R 2 24 0 0", close, "X 2 9", "Z"]);
        let lines = [&held, &owned(&[open]), &used[..], &again, &others];
        (format!("{open} after D"), lines.concat())
    };
    let mut all: Vec<(String, Vec<String>)> = OPENINGS.into_iter().map(of_open).collect();
    let stated = [&held[..], &[format!("O 1 9 {STRING}")]].concat();
    all.push(("O after D".to_string(), stated));
    all
}

/// D with an ordinary buffer and so many critical ones and monitors, got in an earlier native, in the attached item or in a native nested there, or by another thread alone; what is left of them.
fn judged() -> Vec<(String, Vec<String>)> {
    let mut all = Vec::new();
    for buffers in 0..=2 {
        for monitors in 0..=3 {
            let got = [
                calls(&[(ORDINARY_GET, 0, 8)]),
                calls(&vec![(GET, 0, 8); buffers]),
                calls(&vec![(MONITOR_ENTER, 0, 0); monitors]),
            ]
            .concat();
            let of_two = got
                .iter()
                .map(|line| line.replace("1 100", "2 200").replace("R 1", "R 2"));
            let of_two: Vec<String> = of_two.collect();
            for (place, before) in [
                (
                    "before",
                    [owned(&[ENTER]), got.clone(), owned(&[LEAVE, ATTACH])].concat(),
                ),
                ("within", [owned(&[ATTACH]), got.clone()].concat()),
                (
                    "nested",
                    [
                        owned(&[ATTACH, OPEN, ENTER]),
                        got.clone(),
                        owned(&[LEAVE, RETURN]),
                    ]
                    .concat(),
                ),
                (
                    "another's",
                    [owned(&["A 2 200"]), of_two, owned(&[ATTACH])].concat(),
                ),
            ] {
                let left = [
                    owned(&[DETACH, ENTER]),
                    calls(&[(MONITOR_EXIT, 0, 0), (RELEASE, 0, 0)]),
                    vec![call(RELEASE, [0, 8, 0], 0), answer(RELEASE, 0)],
                    owned(&[LEAVE, ATTACH, DETACH, "Z"]),
                ];
                let name = format!("D, {buffers} buffers and {monitors} monitors {place}");
                all.push((name, [before, left.concat()].concat()));
            }
        }
    }
    all
}

/// As many frames as a thread may have, and again after D; as many items.
fn deep() -> Vec<(String, Vec<String>)> {
    let pushes = calls(&[(PUSH_LOCAL_FRAME, 0, 0); MOST_FRAMES - 1]);
    let frames = |open: &str| [owned(&[open]), pushes.clone()].concat();
    let again = |(open, _): (&str, &str)| {
        let one_more = calls(&[(PUSH_LOCAL_FRAME, 0, 0)]);
        let lines = [frames(ATTACH), owned(&[DETACH]), frames(open), one_more];
        (format!("64 frames, D, {open}"), lines.concat())
    };
    let items = [OPEN, ENTER].into_iter().cycle().take(MOST_ITEMS - 1);
    let items = [ATTACH].into_iter().chain(items).chain([ENTER]);
    let mut all: Vec<(String, Vec<String>)> = OPENINGS.into_iter().map(again).collect();
    all.push(("64 items".to_string(), owned(&items.collect::<Vec<_>>())));
    all
}

/// As many locals as an attached frame holds, and one over; once more after D.
fn filled() -> Vec<String> {
    let made = |index: u32| (NEW_LOCAL_REF, 0, Field::from(4 * index + 1));
    let made: Vec<(u32, Handle, Field)> = (1..=NEW_LOCALS + 1).map(made).collect();
    [
        owned(&[ATTACH]),
        calls(&made),
        owned(&[DETACH, ATTACH]),
        calls(&made),
    ]
    .concat()
}

/// 20 over the attached frame, over a frame pushed over it, and over it again.
fn pops() -> Vec<String> {
    let calls = calls(&[
        (NEW_LOCAL_REF, 0, 5),
        (POP_LOCAL_FRAME, 5, 0),
        (PUSH_LOCAL_FRAME, 0, 0),
        (NEW_LOCAL_REF, 5, 9),
        (POP_LOCAL_FRAME, 9, 13),
        (POP_LOCAL_FRAME, 13, 0),
        (IS_SAME_OBJECT, 5, 0),
        (IS_SAME_OBJECT, 13, 0),
    ]);
    [owned(&[ATTACH]), calls, owned(&[DETACH])].concat()
}

/// An exception pending when a thread detaches itself or returns, and none once it is open again.
fn pending() -> Vec<String> {
    let raised = [
        "C 1 100 6 0 0 0 0",
        "R 1 6 0 1",
        "C 1 100 6 0 0 0 0",
        "R 1 6 0 1",
    ];
    let mut lines = Vec::new();
    for (open, close) in [
        OPENINGS[0],
        OPENINGS[0],
        OPENINGS[1],
        OPENINGS[0],
        OPENINGS[1],
    ] {
        lines.extend(owned(&[open]));
        lines.extend(owned(&raised));
        lines.extend(owned(&[close]));
    }
    lines
}

/// A native in a call of an attached thread ends its own locals alone; a call with another env before it.
fn nested() -> Vec<String> {
    [
        owned(&[ATTACH, "C 1 101 4 0 0 0 0", RETURN]),
        calls(&[
            (NEW_LOCAL_REF, 0, 5),
            (PUSH_LOCAL_FRAME, 0, 0),
            (NEW_LOCAL_REF, 0, 9),
        ]),
        owned(&[OPEN, "N 1 100 13"]),
        calls(&[(PUSH_LOCAL_FRAME, 0, 0), (NEW_LOCAL_REF, 0, 17)]),
        vec![
            call(IS_SAME_OBJECT, [5, 9, 0], 0),
            answer(IS_SAME_OBJECT, 0),
        ],
        owned(&["X 1 17", RETURN]),
        vec![
            call(IS_SAME_OBJECT, [5, 9, 0], 0),
            answer(IS_SAME_OBJECT, 0),
        ],
        vec![
            call(IS_SAME_OBJECT, [13, 17, 0], 0),
            answer(IS_SAME_OBJECT, 0),
        ],
        calls(&[
            (POP_LOCAL_FRAME, 0, 0),
            (IS_SAME_OBJECT, 9, 0),
            (POP_LOCAL_FRAME, 0, 0),
        ]),
        owned(&[DETACH, "Z"]),
    ]
    .concat()
}

/// Calls of functions with a value in place a, and what they give.
fn calls(calls: &[(u32, Handle, Field)]) -> Vec<String> {
    let lines = |&(function, a, result): &(u32, Handle, Field)| {
        [call(function, [a, 0, 0], 0), answer(function, result)]
    };
    calls.iter().flat_map(lines).collect()
}
