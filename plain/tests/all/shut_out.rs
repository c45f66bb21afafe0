//! Readings to shut out, each with a trace on which it would differ.

use crate::common::{findings, judged_with, room};

#[test]
fn a_local_looked_up_without_its_thread() {
    let lines = [
        "N 1 100 5",
        "N 2 200 9",
        "C 2 200 31 5 0 0 0",
        "R 2 31 5 0",
        "C 2 200 23 5 0 0 0",
        "R 2 23 0 0",
        "C 1 100 31 5 0 0 0",
        "R 1 31 0 0",
        "C 2 200 31 5 0 0 0",
    ];
    assert_eq!(findings(&lines), ["3 11 1 5", "9 11 1 5"]);
}

#[test]
fn room_counted_from_handles_ever_made() {
    let round = [
        "N 1 100 5 9",
        "C 1 100 165 5 0 0 0",
        "R 1 165 8 0",
        "C 1 100 166 5 8 0 0",
        "R 1 166 0 0",
        "C 1 100 23 9 0 0 0",
        "R 1 23 0 0",
        "C 1 100 21 5 0 0 0",
        "R 1 21 6 0",
        "C 1 100 22 6 0 0 0",
        "R 1 22 0 0",
        "X 1 0",
    ];
    let (mut judge, found) = judged_with(room(2, 1), &round.repeat(50));
    assert!(found.is_empty());
    assert_eq!(judge.tables().references.rows.used(), 0);
}

#[test]
fn exception_clear_treated_as_clearing_by_itself() {
    let lines = [
        "N 1 100",
        "C 1 100 4 0 0 0 0",
        "R 1 4 0 1",
        "C 1 100 17 0 0 0 0",
        "R 1 17 0 1",
        "C 1 100 4 0 0 0 0",
        "R 1 4 0 0",
        "C 1 100 4 0 0 0 0",
    ];
    assert_eq!(findings(&lines), ["6 2 0 0"]);
}

#[test]
fn push_acting_on_a_status_of_minus_1() {
    let lines = [
        "N 1 100",
        "C 1 100 19 0 0 0 0",
        "R 1 19 -1 0",
        "C 1 100 6 0 0 0 0",
        "R 1 6 5 0",
        "C 1 100 20 5 0 0 0",
        "R 1 20 0 0",
        "X 1 5",
    ];
    assert_eq!(findings(&lines), ["6 11 0 0"]);
}

#[test]
fn one_release_ending_all_equal_buffers() {
    let lines = [
        "N 1 100 5",
        "C 1 100 165 5 0 0 0",
        "R 1 165 8 0",
        "C 1 100 165 5 0 0 0",
        "R 1 165 8 0",
        "C 1 100 166 5 8 0 0",
        "R 1 166 0 0",
        "C 1 100 166 5 8 0 0",
        "R 1 166 0 0",
        "C 1 100 166 5 8 0 0",
    ];
    assert_eq!(findings(&lines), ["10 8 2 8"]);
}
