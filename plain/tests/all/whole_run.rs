//! The whole run and the cases P1 to P12, each by its report.

use crate::common::trace;
use plain::report::report;
use plain::room::LENT;

#[track_caller]
fn assert_report(lines: &[&str], expected: &[&str]) {
    let report = report(&trace(lines), LENT);
    let report = String::from_utf8(report).unwrap();
    assert_eq!(report.as_bytes(), trace(expected), "{report}");
}

#[test]
fn p1_the_whole_run() {
    assert_report(
        &[
            "N 1 100 5",
            "C 1 100 169 5 0 0 0",
            "R 1 169 8000 0",
            "C 1 100 23 5 0 0 0",
            "R 1 23 0 0",
            "C 1 100 31 5 0 0 0",
            "R 1 31 9 1",
            "C 1 101 170 9 8000 0 0",
            "R 1 170 0 1",
            "C 1 100 6 0 0 0 0",
            "R 1 6 0 1",
            "X 1 5",
            "Z",
        ],
        &[
            "6 11 1 5",
            "8 1 0 101",
            "8 4 1 9",
            "10 2 0 0",
            "12 11 1 5",
            "end closed 13 0 5",
        ],
    );
}

#[test]
fn p2_empty_input() {
    assert_report(&[], &["end open 0 0 0"]);
}

#[test]
fn p3_z_alone() {
    assert_report(&["Z"], &["end closed 1 0 0"]);
}

#[test]
fn p4_n_naming_5_twice() {
    assert_report(&["N 1 100 5 5"], &["end refused 0 6 0"]);
}

#[test]
fn p5_push_of_a_negative_capacity_then_a_local() {
    assert_report(
        &[
            "N 1 100",
            "C 1 100 19 0 0 0 -5",
            "R 1 19 0 0",
            "C 1 100 6 0 0 0 0",
            "R 1 6 5 0",
        ],
        &["5 11 0 5", "end open 5 0 1"],
    );
}

#[test]
fn p6_push_of_capacity_1_then_two_locals() {
    let one = [
        "N 1 100",
        "C 1 100 19 0 0 0 1",
        "R 1 19 0 0",
        "C 1 100 6 0 0 0 0",
        "R 1 6 5 0",
    ];
    assert_report(&one, &["end open 5 0 0"]);
    let two = [&one[..], &["C 1 100 6 0 0 0 0", "R 1 6 9 0"]].concat();
    assert_report(&two, &["7 11 0 9", "end open 7 0 1"]);
}

#[test]
fn p7_31_on_an_identity_and_on_null() {
    assert_report(
        &["N 1 100", "C 1 100 31 8 0 0 0"],
        &["2 4 1 8", "end open 2 0 1"],
    );
    assert_report(
        &["N 1 100", "C 1 100 31 0 0 0 0"],
        &["2 7 1 0", "end open 2 0 1"],
    );
}

#[test]
fn p8_a_local_used_by_another_thread() {
    assert_report(
        &["N 1 100 5", "N 2 200", "C 2 200 31 5 0 0 0"],
        &["3 11 1 5", "end open 3 0 1"],
    );
}

#[test]
fn p9_6_in_a_critical_region() {
    assert_report(
        &[
            "N 1 100 5",
            "C 1 100 222 5 0 0 0",
            "R 1 222 8000 0",
            "C 1 100 6 0 0 0 0",
        ],
        &["4 3 0 0", "end open 4 0 1"],
    );
}

#[test]
fn p10_20_without_a_push() {
    assert_report(
        &["N 1 100", "C 1 100 20 0 0 0 0"],
        &["2 11 0 0", "end open 2 0 1"],
    );
}

#[test]
fn p11_218_first() {
    assert_report(
        &["N 1 100 5", "C 1 100 218 5 0 0 0"],
        &["2 9 0 0", "end open 2 0 1"],
    );
}

#[test]
fn p12_thread_17_and_a_leading_zero() {
    assert_report(&["N 17 100"], &["end refused 0 3 0"]);
    assert_report(&["N 01 100"], &["end refused 0 2 0"]);
}

#[test]
fn refused_overrides_closed() {
    assert_report(&["Z", "Z"], &["end refused 1 4 0"]);
}

#[test]
fn nothing_after_the_first_refusal_counts() {
    assert_report(&["", "N 1 100", "Z"], &["end refused 0 2 0"]);
}
