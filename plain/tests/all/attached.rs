//! Threads that start in C: A and D from a start.

use crate::common::{findings, judged, judged_with, refusal, refusal_with, room, Lent};
use plain::judge::Judge;
use plain::lent::book::{Top, FRAMES, ITEMS, MONITORS, PENDING};
use plain::lent::slices::Slices;

const NONE: [&str; 0] = [];

/// A thread that is attached and has pushed a frame, with a local in each of its frames.
const TWO_FRAMES: [&str; 7] = [
    "A 1 100",
    "C 1 100 6 0 0 0 0",
    "R 1 6 5 0",
    "C 1 100 19 0 0 0 4",
    "R 1 19 0 0",
    "C 1 100 6 0 0 0 0",
    "R 1 6 9 0",
];

/// Lines of thread 1 that call a function and return from it.
fn called(function: u32, places: [u64; 3], result: i128) -> [String; 2] {
    let [a, b, c] = places;
    [
        format!("C 1 100 {function} {a} {b} {c} 0"),
        format!("R 1 {function} {result} 0"),
    ]
}

/// Lines of thread 1 that enter so many monitors.
fn monitors(count: usize) -> Vec<String> {
    (0..count).flat_map(|_| called(217, [0; 3], 0)).collect()
}

/// Lines of which some are owned.
fn joined(parts: &[&[String]]) -> Vec<String> {
    parts.concat()
}

fn owned(lines: &[&str]) -> Vec<String> {
    lines.iter().map(|line| line.to_string()).collect()
}

fn found(lines: &[String]) -> Vec<String> {
    findings(&crate::common::strs(lines))
}

// ---- the step order

#[test]
fn a_on_an_empty_stack_only() {
    judged(&["A 1 100"]);
    judged(&["A 1 100", "D 1", "A 1 100", "D 1"]);
    judged(&["N 1 100", "X 1 0", "A 1 100"]);
    assert_eq!(refusal(&["A 1 100", "A 1 100"]), 4);
    assert_eq!(refusal(&["N 1 100", "A 1 100"]), 4);
    assert_eq!(refusal(&["A 1 100", "C 1 100 4 0 0 0 0", "A 1 100"]), 4);
    assert_eq!(refusal(&["N 1 100", "C 1 100 4 0 0 0 0", "A 1 100"]), 4);
}

#[test]
fn d_over_an_attached_item_only() {
    assert_eq!(refusal(&["D 1"]), 4);
    assert_eq!(refusal(&["N 1 100", "D 1"]), 4);
    assert_eq!(refusal(&["A 1 100", "C 1 100 4 0 0 0 0", "D 1"]), 4);
    assert_eq!(refusal(&["A 1 100", "D 1", "D 1"]), 4);
    assert_eq!(refusal(&["N 1 100", "X 1 0", "D 1"]), 4);
    let nested = ["A 1 100", "C 1 100 4 0 0 0 0", "N 1 100", "D 1"];
    assert_eq!(refusal(&nested), 4);
    let after = [
        "A 1 100",
        "C 1 100 4 0 0 0 0",
        "N 1 100",
        "X 1 0",
        "R 1 4 0 0",
        "D 1",
    ];
    assert_eq!(findings(&after), NONE);
}

#[test]
fn x_and_n_are_out_of_step_over_an_attached_item_and_r_too() {
    assert_eq!(refusal(&["A 1 100", "X 1 0"]), 4);
    assert_eq!(refusal(&["A 1 100", "N 1 100"]), 4);
    assert_eq!(refusal(&["A 1 100", "R 1 4 0 0"]), 4);
}

#[test]
fn c_over_an_attached_item_as_over_a_native() {
    let call = "C 1 100 4 0 0 0 0";
    assert_eq!(findings(&["A 1 100", call, "R 1 4 0 0", call]), NONE);
    assert_eq!(
        findings(&["A 1 100", "C 1 101 4 0 0 0 0"]),
        ["2 1 0 101"],
        "the env of an A is its thread's"
    );
    let pending = ["A 1 100", "C 1 100 6 0 0 0 0", "R 1 6 0 1", call];
    assert_eq!(findings(&pending), ["4 2 0 0"]);
    let dead = ["A 1 100", "C 1 100 31 5 0 0 0"];
    assert_eq!(findings(&dead), ["2 11 1 5"]);
}

#[test]
fn natives_are_nested_in_calls_of_an_attached_thread() {
    let lines = [
        "A 1 100",
        "C 1 100 6 0 0 0 0",
        "N 1 100 5",
        "C 1 100 6 0 0 0 0",
        "R 1 6 9 0",
        "X 1 9",
        "R 1 6 5 0",
        "C 1 100 24 5 9 0 0",
        "R 1 24 0 0",
        "D 1",
    ];
    assert_eq!(findings(&lines), ["8 11 2 9"]);
}

#[test]
fn stacks_are_the_threads_own() {
    assert_eq!(refusal(&["A 1 100", "D 2"]), 4);
    let lines = ["A 1 100", "N 2 200", "A 3 300", "X 2 0", "D 3", "D 1"];
    assert_eq!(findings(&lines), NONE);
}

#[test]
fn z_may_come_while_a_thread_is_attached_and_nothing_after_it() {
    assert_eq!(findings(&["A 1 100", "Z"]), NONE);
    assert_eq!(refusal(&["A 1 100", "Z", "D 1"]), 4);
    assert_eq!(refusal(&["Z", "A 1 100"]), 4);
    assert_eq!(refusal(&["Z", "A 17 100"]), 3);
    assert_eq!(refusal(&["Z", "D 1 0"]), 2);
}

// ---- envs

#[test]
fn an_env_is_that_of_the_first_n_or_a_for_ever() {
    for open in ["N 1", "A 1"] {
        let close = if open == "N 1" { "X 1 0" } else { "D 1" };
        let first = format!("{open} 100");
        for again in ["N 1", "A 1"] {
            let same = format!("{again} 100");
            let other = format!("{again} 101");
            let twin = format!("{again} 4294967396");
            judged(&[&first, close, &same]);
            assert_eq!(refusal(&[&first, close, &other]), 5);
            assert_eq!(refusal(&[&first, close, &twin]), 5);
        }
        for others in ["N 2 100", "A 2 100"] {
            assert_eq!(refusal(&[&first, others]), 5);
            assert_eq!(refusal(&[&first, close, others]), 5);
        }
        judged(&[&first, close, "A 2 4294967396"]);
        judged(&[&first, "A 2 101", "N 3 102"]);
    }
    let within = ["A 1 100", "C 1 100 4 0 0 0 0", "N 1 101"];
    assert_eq!(refusal(&within), 5);
}

#[test]
fn a_refused_a_leaves_no_env_and_4_comes_before_5() {
    let mut judge = Judge::new(room(8, 8));
    let line = crate::common::line;
    judge.step(&line("A 1 100")).unwrap();
    assert_eq!(judge.step(&line("A 2 100")), Err(5));
    assert!(judge.step(&line("A 2 200")).is_ok());
    assert_eq!(judge.step(&line("A 2 300")), Err(4));
    assert_eq!(judge.step(&line("A 2 100")), Err(4));
    assert!(judge.step(&line("N 3 300")).is_ok());
}

// ---- the frame of an A

#[test]
fn an_attached_frame_holds_sixteen_locals() {
    let make = |handle: i128| called(6, [0; 3], handle);
    let mut lines = owned(&["A 1 100"]);
    lines.extend((1..=16).flat_map(|index| make(4 * index + 1)));
    assert_eq!(found(&lines), NONE);
    lines.extend(make(69));
    assert_eq!(found(&lines), ["35 11 0 69"]);
    lines.extend(owned(&["D 1", "A 1 100"]));
    lines.extend((1..=16).flat_map(|index| make(4 * index + 1)));
    assert_eq!(found(&lines), ["35 11 0 69"]);
}

#[test]
fn an_attached_frame_is_raised_as_a_natives_is() {
    let mut lines = owned(&["A 1 100", "C 1 100 26 0 0 0 17", "R 1 26 0 0"]);
    lines.extend((1..=17).flat_map(|index| called(6, [0; 3], 4 * index + 1)));
    assert_eq!(found(&lines), NONE);
    lines.extend(called(6, [0; 3], 73));
    assert_eq!(found(&lines), ["39 11 0 73"]);
}

#[test]
fn it_was_not_pushed() {
    let lines = [
        "A 1 100",
        "C 1 100 20 0 0 0 0",
        "R 1 20 5 0",
        "C 1 100 31 5 0 0 0",
    ];
    assert_eq!(findings(&lines), ["2 11 0 0"]);
    let pop = "C 1 100 20 0 0 0 0";
    let twice = [&TWO_FRAMES[..], &[pop, "R 1 20 0 0", pop]].concat();
    assert_eq!(findings(&twice), ["10 11 0 0"]);
    let lines = [&TWO_FRAMES[..], &[pop, "R 1 20 0 0", "C 1 100 24 5 9 0 0"]].concat();
    assert_eq!(findings(&lines), ["10 11 2 9"]);
}

#[test]
fn a_clears_what_is_pending_and_d_does_not() {
    let raised = ["A 1 100", "C 1 100 6 0 0 0 0", "R 1 6 0 1", "D 1"];
    let (mut judge, found) = judged(&raised);
    assert_eq!(found, NONE);
    assert!(judge.tables().book.is_pending(1));
    for open in ["A 1 100", "N 1 100"] {
        let lines = [&raised[..], &[open, "C 1 100 6 0 0 0 0"]].concat();
        assert_eq!(findings(&lines), NONE);
    }
    let by_native = [
        "N 1 100", raised[1], raised[2], "X 1 0", "A 1 100", raised[1],
    ];
    assert_eq!(findings(&by_native), NONE);
}

#[test]
fn a_needs_no_row_and_makes_none() {
    judged_with(room(0, 0), &["A 1 100", "D 1"]);
    assert_eq!(
        refusal_with(room(0, 0), &["A 1 100", "C 1 100 6 0 0 0 0", "R 1 6 5 0"]),
        7
    );
}

// ---- what D ends

#[test]
fn d_ends_the_threads_locals_and_frames() {
    let (mut judge, found) = judged(&[&TWO_FRAMES[..], &["D 1"]].concat());
    assert_eq!(found, NONE);
    let tables = judge.tables();
    assert_eq!(tables.references.rows.used(), 0);
    assert_eq!((tables.book.frames(1), tables.book.items(1)), (0, 0));
    assert_eq!(tables.book.top(1), Top::Nothing);
    for open in ["A 1 100", "N 1 100"] {
        let lines = [&TWO_FRAMES[..], &["D 1", open, "C 1 100 24 5 9 0 0"]].concat();
        assert_eq!(findings(&lines), ["10 11 1 5", "10 11 2 9"]);
        let again = [
            &TWO_FRAMES[..],
            &["D 1", open, "C 1 100 6 0 0 0 0", "R 1 6 9 0"],
        ];
        assert_eq!(findings(&again.concat()), NONE);
    }
}

#[test]
fn d_leaves_globals_weaks_and_other_threads_alone() {
    let mut lines = owned(&["N 2 200 5 9", "A 1 100"]);
    lines.extend(called(21, [0; 3], 6));
    lines.extend(called(226, [0; 3], 7));
    lines.extend(called(6, [0; 3], 5));
    lines.extend(owned(&[
        "D 1",
        "C 2 200 24 5 9 0 0",
        "R 2 24 0 0",
        "C 2 200 24 6 7 0 0",
        "R 2 24 0 0",
        "X 2 9",
        "Z",
    ]));
    assert_eq!(found(&lines), ["15 10 0 2"]);
}

#[test]
fn after_d_a_thread_has_room_for_64_frames_again() {
    let push = ["C 1 100 19 0 0 0 1", "R 1 19 0 0"];
    let frames = |open| [vec![open], push.repeat(63)].concat();
    let once = [frames("A 1 100"), vec!["D 1"]].concat();
    judged(&once);
    for open in ["A 1 100", "N 1 100"] {
        judged(&[once.clone(), frames(open)].concat());
        let over = [once.clone(), frames(open), push.to_vec()].concat();
        assert_eq!(refusal(&over), 7);
    }
}

#[test]
fn items_over_an_attached_one_are_at_most_64() {
    let pair = ["C 1 100 4 0 0 0 0", "N 1 100"];
    let mut lines = vec!["A 1 100"];
    lines.extend(pair.into_iter().cycle().take(63));
    judged(&lines);
    lines.push("N 1 100");
    assert_eq!(refusal(&lines), 7);
}

// ---- rule 3 and rule 9

#[test]
fn d_with_a_critical_buffer_is_rule_3_and_releases_nothing() {
    let mut lines = owned(&["A 1 100"]);
    lines.extend(called(222, [0; 3], 8));
    lines.push("D 1".to_string());
    let (mut judge, found) = judged(&crate::common::strs(&lines));
    assert_eq!(found, ["2 7 1 0", "4 3 0 0"]);
    assert_eq!(judge.tables().pins.rows.used(), 1);
    lines.extend(owned(&["A 1 100", "C 1 100 6 0 0 0 0", "R 1 6 5 0"]));
    lines.push("C 1 100 223 5 8 0 0".to_string());
    lines.push("R 1 223 0 0".to_string());
    lines.push("D 1".to_string());
    let found = self::found(&lines);
    assert_eq!(found[2..], ["6 3 0 0"]);
}

#[test]
fn rule_3_on_d_is_by_thread_and_not_for_ordinary_buffers() {
    let lines = [
        "N 2 200 5",
        "C 2 200 222 5 0 0 0",
        "R 2 222 8 0",
        "C 2 200 224 5 0 0 0",
        "R 2 224 8 0",
        "A 1 100",
        "C 1 100 6 0 0 0 0",
        "R 1 6 5 0",
        "C 1 100 165 5 0 0 0",
        "R 1 165 8 0",
        "D 1",
    ];
    let (mut judge, found) = judged(&lines);
    assert_eq!(found, ["4 3 0 0"; 0]);
    assert_eq!(judge.tables().pins.rows.used(), 3);
}

#[test]
fn d_with_monitors_is_rule_9_with_their_count_and_takes_them() {
    for count in 0..4 {
        let lines = joined(&[&owned(&["A 1 100"]), &monitors(count), &owned(&["D 1"])]);
        let (mut judge, found) = judged(&crate::common::strs(&lines));
        let number = lines.len();
        let wanted: Vec<String> = match count {
            0 => Vec::new(),
            _ => vec![format!("{number} 9 0 {count}")],
        };
        let of_d: Vec<String> = found
            .into_iter()
            .filter(|found| found.starts_with(&format!("{number} ")))
            .collect();
        assert_eq!(of_d, wanted);
        assert_eq!(judge.tables().book.monitors(1), 0);
    }
}

/// The findings of the last line and of Z behind it.
fn at_end(lines: &[String]) -> Vec<String> {
    let lines = joined(&[lines, &owned(&["Z"])]);
    let last = lines.len();
    let is_late = |found: &String| {
        let line: usize = found.split(' ').next().unwrap().parse().unwrap();
        line + 1 >= last
    };
    found(&lines).into_iter().filter(is_late).collect()
}

#[test]
fn ds_rule_9_counts_monitors_of_earlier_natives_and_not_of_other_threads() {
    let of_native = joined(&[&owned(&["N 1 100"]), &monitors(2), &owned(&["X 1 0"])]);
    let attached = joined(&[&of_native, &owned(&["A 1 100", "D 1"])]);
    assert_eq!(at_end(&attached), ["8 9 0 2"]);
    let more = joined(&[
        &of_native,
        &owned(&["A 1 100"]),
        &monitors(1),
        &owned(&["D 1"]),
    ]);
    assert_eq!(at_end(&more), ["10 9 0 3"]);
    let nested = joined(&[
        &owned(&["A 1 100", "C 1 100 4 0 0 0 0", "N 1 100"]),
        &monitors(1),
        &owned(&["X 1 0", "R 1 4 0 0", "D 1"]),
    ]);
    assert_eq!(at_end(&nested), ["8 9 0 1"]);
    let others = joined(&[&of_native, &owned(&["A 2 200", "D 2"])]);
    assert_eq!(at_end(&others), ["9 9 0 2"]);
}

#[test]
fn after_d_no_monitor_is_left_to_exit() {
    let lines = joined(&[
        &owned(&["A 1 100"]),
        &monitors(2),
        &owned(&["D 1", "N 1 100 5", "C 1 100 218 5 0 0 0"]),
    ]);
    let found = found(&lines);
    assert_eq!(found[found.len() - 2..], ["6 9 0 2", "8 9 0 0"]);
}

#[test]
fn d_may_break_both_rules_3_first() {
    let lines = joined(&[
        &owned(&["A 1 100"]),
        &monitors(1),
        &called(222, [0; 3], 8),
        &owned(&["D 1"]),
    ]);
    assert_eq!(at_end(&lines), ["6 3 0 0", "6 9 0 1", "7 8 0 1"]);
}

// ---- what stands in the book

#[test]
fn an_attached_item_is_marked_with_function_1_and_a_native_with_0() {
    use plain::lent::book::{ASKED, CAPACITIES, ENV, FUNCTIONS, NATIVES, PUSHED};
    let mut lent = Slices::after(room(8, 8), &["A 1 100"]);
    for (column, number) in [
        (ENV, 100),
        (PENDING, 0),
        (MONITORS, 0),
        (FRAMES, 1),
        (CAPACITIES, 16),
        (PUSHED, 0),
        (ITEMS, 1),
        (NATIVES, 1),
        (FUNCTIONS, 1),
        (ASKED, 0),
    ] {
        assert_eq!(*lent.at(1, column), number, "{column}");
    }
    lent.accepts("C 1 100 19 0 0 0 7");
    lent.accepts("N 1 100");
    assert_eq!(*lent.at(1, NATIVES), 0b101);
    let functions = [0, 1, 2].map(|index| *lent.at(1, FUNCTIONS + index));
    assert_eq!(functions, [1, 19, 0]);
    let asked = [0, 1, 2].map(|index| *lent.at(1, ASKED + index));
    assert_eq!(asked, [0, 7, 0]);
}

#[test]
fn a_popped_attached_item_and_its_frame_keep_their_numbers() {
    use plain::lent::book::{CAPACITIES, ENV, FUNCTIONS, NATIVES};
    let mut lent = Slices::after(room(8, 8), &["A 1 100", "D 1"]);
    for (column, number) in [
        (ENV, 100),
        (FRAMES, 0),
        (CAPACITIES, 16),
        (ITEMS, 0),
        (NATIVES, 1),
        (FUNCTIONS, 1),
    ] {
        assert_eq!(*lent.at(1, column), number, "{column}");
    }
    lent.accepts("N 1 100");
    assert_eq!(*lent.at(1, FUNCTIONS), 0);
    lent.accepts("X 1 0");
}
