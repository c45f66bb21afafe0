//! What lines do, and the breaches judged on them.

use crate::common::{findings, judged, judged_with, line, room, strs, told, TWO_EQUAL_TURNED};
use plain::judge::Judge;

/// Takes the lines of some parts together.
fn all<'a>(parts: &[&[&'a str]]) -> Vec<&'a str> {
    parts.concat()
}

#[rustfmt::skip]
const MAKES: [&str; 36] = [
    "C 1 100 6 0 0 0 0", "R 1 6 101 0",
    "C 1 100 6 0 0 0 0", "R 1 6 105 0",
    "C 1 100 6 0 0 0 0", "R 1 6 109 0",
    "C 1 100 6 0 0 0 0", "R 1 6 113 0",
    "C 1 100 6 0 0 0 0", "R 1 6 117 0",
    "C 1 100 6 0 0 0 0", "R 1 6 121 0",
    "C 1 100 6 0 0 0 0", "R 1 6 125 0",
    "C 1 100 6 0 0 0 0", "R 1 6 129 0",
    "C 1 100 6 0 0 0 0", "R 1 6 133 0",
    "C 1 100 6 0 0 0 0", "R 1 6 137 0",
    "C 1 100 6 0 0 0 0", "R 1 6 141 0",
    "C 1 100 6 0 0 0 0", "R 1 6 145 0",
    "C 1 100 6 0 0 0 0", "R 1 6 149 0",
    "C 1 100 6 0 0 0 0", "R 1 6 153 0",
    "C 1 100 6 0 0 0 0", "R 1 6 157 0",
    "C 1 100 6 0 0 0 0", "R 1 6 161 0",
    "C 1 100 6 0 0 0 0", "R 1 6 165 0",
    "C 1 100 6 0 0 0 0", "R 1 6 169 0",
];

/// Makes this many locals in thread 1, handles 101, 105 and so on.
fn makes(count: usize) -> &'static [&'static str] {
    &MAKES[..2 * count]
}

#[test]
fn deletes_act_at_c() {
    let lines = [
        "N 1 100 5",
        "C 1 100 23 5 0 0 0",
        "N 1 100 5",
        "X 1 5",
        "R 1 23 0 0",
    ];
    assert!(findings(&lines).is_empty());
    let lines = [
        "N 1 100 5",
        "C 1 100 21 5 0 0 0",
        "R 1 21 6 0",
        "C 1 100 22 6 0 0 0",
        "N 1 100",
        "C 1 100 31 6 0 0 0",
    ];
    assert_eq!(findings(&lines), ["6 10 1 6"]);
    let lines = [
        "N 1 100 5",
        "C 1 100 226 5 0 0 0",
        "R 1 226 7 0",
        "C 1 100 227 7 0 0 0",
        "N 1 100",
        "C 1 100 31 7 0 0 0",
    ];
    assert_eq!(findings(&lines), ["6 10 1 7"]);
}

#[test]
fn a_release_acts_at_c() {
    let lines = [
        "N 1 100 5",
        "C 1 100 222 5 0 0 0",
        "R 1 222 8 0",
        "C 1 100 223 5 8 0 0",
        "N 1 100",
        "C 1 100 6 0 0 0 0",
    ];
    assert!(findings(&lines).is_empty());
}

#[test]
fn twenty_acts_at_c() {
    let lines = [
        "N 1 100",
        "C 1 100 19 0 0 0 4",
        "R 1 19 0 0",
        "C 1 100 6 0 0 0 0",
        "R 1 6 5 0",
        "C 1 100 20 0 0 0 0",
        "N 1 100",
        "C 1 100 31 5 0 0 0",
    ];
    assert_eq!(findings(&lines), ["8 11 1 5"]);
}

#[test]
fn results_pushes_and_monitors_act_at_r() {
    let lines = ["N 1 100", "C 1 100 6 0 0 0 0", "N 1 100", "X 1 5"];
    assert_eq!(findings(&lines), ["4 11 1 5"]);
    let lines = [
        "N 1 100 5",
        "C 1 100 217 5 0 0 0",
        "N 1 100",
        "C 1 100 218 5 0 0 0",
        "R 1 218 0 0",
        "X 1 0",
        "R 1 217 0 0",
        "C 1 100 218 5 0 0 0",
        "R 1 218 0 0",
        "C 1 100 218 5 0 0 0",
    ];
    assert_eq!(findings(&lines), ["4 9 0 0", "10 9 0 0"]);
    let lines = ["N 1 100 5", "C 1 100 222 5 0 0 0", "N 1 100", "X 1 0"];
    assert!(findings(&lines).is_empty());
}

#[test]
fn monitors_count_and_only_status_0_acts() {
    let lines = [
        "N 1 100 5",
        "C 1 100 217 5 0 0 0",
        "R 1 217 -1 0",
        "C 1 100 217 5 0 0 0",
        "R 1 217 1 0",
        "C 1 100 218 5 0 0 0",
        "R 1 218 0 0",
        "C 1 100 217 5 0 0 0",
        "R 1 217 0 0",
        "C 1 100 217 5 0 0 0",
        "R 1 217 0 0",
        "C 1 100 218 5 0 0 0",
        "R 1 218 -1 0",
        "C 1 100 218 5 0 0 0",
        "R 1 218 0 0",
        "Z",
    ];
    assert_eq!(findings(&lines), ["6 9 0 0", "16 9 0 1"]);
}

#[test]
fn n_is_that_of_the_matching_c_however_much_is_nested_between() {
    let lines = [
        "N 1 100",
        "C 1 100 19 0 0 0 1",
        "N 1 100",
        "C 1 100 19 0 0 0 7",
        "R 1 19 0 0",
        "C 1 100 26 0 0 0 9",
        "R 1 26 0 0",
        "X 1 0",
        "R 1 19 0 0",
        "C 1 100 6 0 0 0 0",
        "R 1 6 5 0",
        "C 1 100 6 0 0 0 0",
        "R 1 6 9 0",
    ];
    assert_eq!(findings(&lines), ["13 11 0 9"]);
}

#[test]
fn twenty_six_raises_by_the_locals_alive_when_r_acts() {
    // Eight named and three made, then room for fourteen more: 25 locals.
    let lines = all(&[
        &["N 1 100 1 5 9 13 17 21 25 29"],
        makes(3),
        &["C 1 100 26 0 0 0 14", "R 1 26 0 0"],
    ]);
    let (mut judge, _) = judged(&lines);
    assert_eq!(judge.tables().book.capacity(1, 1), 25);
    let (mut judge, _) = judged(&all(&[&lines, &["C 1 100 26 0 0 0 13", "R 1 26 0 0"]]));
    assert_eq!(judge.tables().book.capacity(1, 1), 25);
    let (mut judge, _) = judged(&all(&[&lines, &["C 1 100 26 0 0 0 15", "R 1 26 -1 0"]]));
    assert_eq!(judge.tables().book.capacity(1, 1), 25);
    let greatest = ["C 1 100 26 0 0 0 2147483647", "R 1 26 0 0"];
    let (mut judge, _) = judged(&all(&[&lines, &greatest]));
    assert_eq!(judge.tables().book.capacity(1, 1), 2_147_483_658);
}

#[test]
fn twenty_six_with_a_negative_n_can_still_raise_the_capacity() {
    for n in ["-1", "0", "-2147483648"] {
        let ensure = format!("C 1 100 26 0 0 0 {n}");
        let lines = all(&[
            &["N 1 100 1 5 9 13 17 21 25 29"],
            makes(18),
            &[&ensure, "R 1 26 0 0", "C 1 100 6 0 0 0 0", "R 1 6 33 0"],
        ]);
        let overflows = ["35 11 0 165", "37 11 0 169", "41 11 0 33"];
        assert_eq!(findings(&lines)[..2], overflows[..2]);
        let deleted = ["C 1 100 23 1 0 0 0", "R 1 23 0 0"];
        let again = all(&[&lines[..39], &deleted, &lines[39..]]);
        assert_eq!(findings(&lines), overflows);
        assert_eq!(findings(&again), overflows[..2], "{n}");
    }
}

#[test]
fn twenty_looks_at_the_threads_top_frame() {
    let lines = [
        "N 1 100",
        "C 1 100 19 0 0 0 4",
        "R 1 19 0 0",
        "C 1 100 4 0 0 0 0",
        "N 1 100 5",
        "C 1 100 20 0 0 0 0",
        "R 1 20 0 0",
        "X 1 5",
        "R 1 4 0 0",
        "C 1 100 20 0 0 0 0",
        "R 1 20 0 0",
        "C 1 100 20 0 0 0 0",
    ];
    assert_eq!(findings(&lines), ["6 11 0 0", "12 11 0 0"]);
}

#[test]
fn twentys_result_is_made_in_the_frame_below_and_overflow_judged_there() {
    let lines = [
        "N 1 100",
        "C 1 100 19 0 0 0 0",
        "R 1 19 0 0",
        "C 1 100 19 0 0 0 9",
        "R 1 19 0 0",
        "C 1 100 20 0 0 0 0",
        "R 1 20 5 0",
    ];
    let (mut judge, found) = judged(&lines);
    assert_eq!(found, ["7 11 0 5"]);
    assert_eq!(judge.tables().references.rows.all()[0], [1, 5, 2, 7, 0]);
}

#[test]
fn overflow_is_judged_at_each_r_that_makes_a_local() {
    let lines = all(&[&["N 1 100 1 5 9 13 17 21 25 29"], makes(18)]);
    assert_eq!(findings(&lines), ["35 11 0 165", "37 11 0 169"]);
}

#[test]
fn a_natives_capacity_is_16_plus_the_handles_on_its_n_line() {
    for count in 0..=8 {
        let handles: Vec<String> = (0..count)
            .map(|index| format!(" {}", 4 * index + 1))
            .collect();
        let enter = "N 1 100".to_string() + &handles.concat();
        assert!(findings(&all(&[&[&enter], makes(16)])).is_empty());
        let lines = all(&[&[&enter], makes(17)]);
        assert_eq!(findings(&lines), ["35 11 0 165"], "{enter}");
    }
}

#[test]
fn a_nested_native_has_its_own_capacity_and_leaves_the_outer_its() {
    for (outer, inner) in [
        ("N 1 100 1 5 9", "N 1 100 13"),
        ("N 1 100", "N 1 100 1 5 9 13 17 21 25 29"),
    ] {
        let lines = all(&[
            &[outer, "C 1 100 4 0 0 0 0", inner],
            makes(17),
            &["X 1 0", "R 1 4 0 0"],
            makes(17),
        ]);
        assert_eq!(findings(&lines), ["37 11 0 165", "73 11 0 165"], "{inner}");
    }
}

#[test]
fn twenty_six_raises_from_16_plus_the_handles() {
    for (n, overflows) in [
        (8, &["37 11 0 165", "39 11 0 169"][..]),
        (9, &["37 11 0 165", "39 11 0 169"]),
        (16, &["37 11 0 165", "39 11 0 169"]),
        (17, &["39 11 0 169"]),
        (18, &[]),
    ] {
        let ensure = format!("C 1 100 26 0 0 0 {n}");
        let lines = all(&[
            &["N 1 100 1 5 9 13 17 21 25 29", &ensure, "R 1 26 0 0"],
            makes(18),
        ]);
        assert_eq!(findings(&lines), overflows, "{n}");
    }
}

#[test]
fn an_argument_deleted_leaves_room_for_another_local() {
    let lines = all(&[
        &["N 1 100 1 5", "C 1 100 23 1 0 0 0", "R 1 23 0 0"],
        makes(18),
    ]);
    assert_eq!(findings(&lines), ["39 11 0 169"]);
}

#[test]
fn a_pushed_frame_has_the_capacity_asked_for_whatever_the_arguments() {
    let lines = all(&[
        &[
            "N 1 100 1 5 9 13 17 21 25 29",
            "C 1 100 19 0 0 0 1",
            "R 1 19 0 0",
        ],
        makes(2),
    ]);
    assert_eq!(findings(&lines), ["7 11 0 105"]);
}

#[test]
fn overflow_is_never_judged_at_n_and_n_counts_its_handles() {
    let lines = all(&[
        &["N 1 100 1 5 9 13 17 21 25 29"],
        makes(16),
        &["C 1 100 4 0 0 0 0", "N 1 100 33 37"],
    ]);
    assert!(findings(&lines).is_empty());
}

#[test]
fn globals_and_weaks_never_overflow() {
    let lines = [
        "N 1 100 5",
        "C 1 100 19 0 0 0 0",
        "R 1 19 0 0",
        "C 1 100 21 5 0 0 0",
        "R 1 21 6 0",
        "C 1 100 226 5 0 0 0",
        "R 1 226 7 0",
        "C 1 100 6 0 0 0 0",
        "R 1 6 0 0",
    ];
    assert!(findings(&lines).is_empty());
}

#[test]
fn x_ends_the_locals_and_frames_of_its_native_and_no_others() {
    let lines = [
        "N 1 100 5",
        "C 1 100 4 0 0 0 0",
        "N 1 100 9",
        "C 1 100 19 0 0 0 4",
        "R 1 19 0 0",
        "C 1 100 6 0 0 0 0",
        "R 1 6 13 0",
        "X 1 9",
        "R 1 4 0 0",
        "M 8 1 1 0 0",
        "C 1 100 67 9 13 8 0",
        "R 1 67 0 0",
        "C 1 100 20 5 0 0 0",
    ];
    let (mut judge, found) = judged(&lines);
    assert_eq!(found, ["11 11 1 9", "11 11 2 13", "13 11 0 0"]);
    assert_eq!(judge.tables().book.frames(1), 1);
    assert_eq!(judge.tables().references.rows.used(), 1);
}

#[test]
fn x_ends_no_buffers_and_no_monitors() {
    let lines = [
        "N 1 100 5",
        "C 1 100 217 5 0 0 0",
        "R 1 217 0 0",
        "C 1 100 165 5 0 0 0",
        "R 1 165 8 0",
        "X 1 0",
        "N 1 100 5",
        "C 1 100 166 5 8 0 0",
        "R 1 166 0 0",
        "C 1 100 218 5 0 0 0",
    ];
    assert!(findings(&lines).is_empty());
}

#[test]
fn rule_3_on_x_is_by_thread() {
    let lines = [
        "N 1 100 5",
        "N 2 200",
        "C 1 100 222 5 0 0 0",
        "N 1 100",
        "X 1 0",
        "R 1 222 8 0",
        "X 2 0",
        "X 1 0",
        "N 1 100",
        "X 1 0",
    ];
    assert_eq!(findings(&lines), ["8 3 0 0", "10 3 0 0"]);
}

#[test]
fn in_a_critical_region_only_222_to_225_are_allowed() {
    let region = ["N 1 100 5", "C 1 100 224 5 0 0 0", "R 1 224 8 0"];
    for function in [222, 224] {
        let call = format!("C 1 100 {function} 5 0 0 0");
        assert!(findings(&all(&[&region, &[&call]])).is_empty());
    }
    assert!(findings(&all(&[&region, &["C 1 100 225 5 8 0 0"]])).is_empty());
    let found = findings(&all(&[&region, &["C 1 100 223 5 8 0 0"]]));
    assert_eq!(found, ["4 8 2 8"]);
    let found = findings(&all(&[&region, &["C 1 100 166 5 8 0 0"]]));
    assert_eq!(found, ["4 3 0 0", "4 8 2 8"]);
    assert!(findings(&all(&[&region, &["N 2 200 5", "C 2 200 31 5 0 0 0"]])).is_empty());
}

#[test]
fn twenty_three_on_anothers_local_and_22_on_a_weak_end_nothing() {
    let lines = [
        "N 1 100 5",
        "N 2 200",
        "C 2 200 23 5 0 0 0",
        "R 2 23 0 0",
        "C 1 100 226 5 0 0 0",
        "R 1 226 7 0",
        "C 1 100 22 7 0 0 0",
        "R 1 22 0 0",
        "C 1 100 24 5 7 0 0",
    ];
    assert_eq!(findings(&lines), ["3 11 1 5", "7 4 1 7"]);
}

#[test]
fn every_other_condemned_line_acts_in_full() {
    let lines = [
        "N 1 100 5",
        "C 1 100 222 5 0 0 0",
        "R 1 222 8 1",
        "C 1 101 23 5 0 0 0",
        "R 1 23 0 1",
        "C 1 101 223 9 8 0 0",
        "R 1 223 0 1",
        "C 1 101 19 0 0 0 2",
        "R 1 19 0 1",
        "C 1 101 6 0 0 0 0",
        "R 1 6 13 1",
        "C 1 101 20 13 0 0 0",
        "R 1 20 0 0",
        "C 1 100 31 13 0 0 0",
    ];
    assert_eq!(
        findings(&lines),
        [
            "4 1 0 101",
            "4 3 0 0",
            "6 1 0 101",
            "6 11 1 9",
            "8 1 0 101",
            "10 1 0 101",
            "10 2 0 0",
            "12 1 0 101",
            "14 11 1 13",
        ]
    );
}

#[test]
fn a_release_matches_family_and_buffer_and_never_place_a() {
    let got = ["N 1 100 5 9", "C 1 100 183 5 0 0 0", "R 1 183 8 0"];
    let released = |call: &str| {
        let (mut judge, found) = judged(&all(&[&got, &[call]]));
        (judge.tables().pins.rows.used(), found)
    };
    assert_eq!(released("C 1 100 191 9 8 0 0"), (0, vec![]));
    assert_eq!(
        released("C 1 100 191 0 8 0 0"),
        (0, vec!["4 7 1 0".to_string()])
    );
    assert_eq!(
        released("C 1 100 192 5 8 0 0"),
        (1, vec!["4 8 2 8".to_string()])
    );
    assert_eq!(
        released("C 1 100 191 5 12 0 0"),
        (1, vec!["4 8 2 12".to_string()])
    );
}

#[test]
fn a_release_by_another_thread_counts_unless_critical() {
    let lines = [
        "N 1 100 5",
        "N 2 200 5",
        "C 1 100 183 5 0 0 0",
        "R 1 183 8 0",
        "C 2 200 191 5 8 0 0",
        "R 2 191 0 0",
        "C 1 100 222 5 0 0 0",
        "R 1 222 8 0",
        "C 2 200 223 5 8 0 0",
        "R 2 223 0 0",
        "C 1 100 223 5 8 0 0",
    ];
    assert_eq!(findings(&lines), ["9 8 2 8"]);
}

#[test]
fn a_release_ends_the_lowest_row_which_need_not_be_the_oldest() {
    let (mut judge, _) = judged_with(room(4, 4), &TWO_EQUAL_TURNED);
    let unused = [0; 4];
    assert_eq!(
        judge.tables().pins.rows.all(),
        [[0, 1, 8, 9], [0, 1, 8, 5], unused, unused]
    );
    judge.step(&line("C 1 100 170 5 8 0 0")).unwrap();
    assert_eq!(
        judge.tables().pins.rows.all(),
        [unused, [0, 1, 8, 5], unused, unused]
    );
}

#[test]
fn a_new_row_is_the_lowest_free_one_and_an_ended_row_is_zero() {
    let lines = [
        "N 1 100 5 9 13",
        "C 1 100 23 9 0 0 0",
        "R 1 23 0 0",
        "C 1 100 21 5 0 0 0",
        "R 1 21 6 0",
        "N 2 200 9",
        "C 1 100 19 0 0 0 2",
        "R 1 19 0 0",
        "C 1 100 6 0 0 0 0",
        "R 1 6 9 0",
    ];
    let (mut judge, _) = judged_with(room(6, 1), &lines);
    assert_eq!(
        judge.tables().references.rows.all(),
        [
            [1, 5, 1, 1, 0],
            [0, 6, 0, 5, 0],
            [1, 13, 1, 1, 0],
            [2, 9, 1, 6, 0],
            [1, 9, 2, 10, 0],
            [0; 5]
        ]
    );
    judge.step(&line("X 1 0")).unwrap();
    let (unused, global, local) = ([0; 5], [0, 6, 0, 5, 0], [2, 9, 1, 6, 0]);
    assert_eq!(
        judge.tables().references.rows.all(),
        [unused, global, unused, local, unused, unused]
    );
}

#[test]
fn rows_past_the_first_word_of_marks_are_taken_in_order() {
    let mut judge = Judge::new(room(130, 0));
    for thread in 1..=16 {
        let base = 32 * (thread - 1);
        let handles: Vec<String> = (0..8).map(|k| (base + 4 * k + 1).to_string()).collect();
        let text = format!("N {thread} {} {}", 100 * thread, handles.join(" "));
        judge.step(&line(&text)).unwrap();
    }
    assert_eq!(judge.tables().references.rows.used(), 128);
    assert_eq!(judge.tables().references.rows.all()[64], [9, 257, 1, 9, 0]);
    judge.step(&line("C 3 300 23 65 0 0 0")).unwrap();
    judge.step(&line("C 9 900 6 0 0 0 0")).unwrap();
    judge.step(&line("R 9 6 1001 0")).unwrap();
    assert_eq!(
        judge.tables().references.rows.all()[16],
        [9, 1001, 1, 19, 0]
    );
    judge.step(&line("C 9 900 6 0 0 0 0")).unwrap();
    judge.step(&line("R 9 6 1005 0")).unwrap();
    assert_eq!(
        judge.tables().references.rows.all()[128],
        [9, 1005, 1, 21, 0]
    );
    judge.step(&line("C 9 900 6 0 0 0 0")).unwrap();
    judge.step(&line("R 9 6 1009 0")).unwrap();
    judge.step(&line("C 9 900 6 0 0 0 0")).unwrap();
    assert_eq!(judge.step(&line("R 9 6 1013 0")), Err(7));
}

#[test]
fn pending_is_one_flag_of_the_thread() {
    let lines = [
        "N 1 100",
        "C 1 100 4 0 0 0 0",
        "R 1 4 0 1",
        "N 2 200",
        "C 2 200 4 0 0 0 0",
        "C 1 100 4 0 0 0 0",
        "N 1 100",
        "C 1 100 4 0 0 0 0",
        "R 1 4 0 1",
        "X 1 0",
        "R 1 4 0 0",
        "C 1 100 4 0 0 0 0",
    ];
    assert_eq!(findings(&lines), ["6 2 0 0"]);
    let kept_over_x = [
        "N 1 100",
        "C 1 100 4 0 0 0 0",
        "N 1 100",
        "C 1 100 4 0 0 0 0",
        "R 1 4 0 1",
        "X 1 0",
        "R 1 4 0 1",
        "X 1 0",
    ];
    let (mut judge, found) = judged(&kept_over_x);
    assert!(judge.tables().book.is_pending(1) && found.is_empty());
    let (mut judge, _) = judged(&all(&[&kept_over_x, &["N 1 100"]]));
    assert!(!judge.tables().book.is_pending(1));
}

#[test]
fn with_an_exception_pending_22_functions_are_allowed() {
    let allowed: Vec<u32> = (4..=232)
        .filter(|function| {
            let call = format!("C 1 100 {function} 0 0 0 0");
            let lines = ["N 1 100", "C 1 100 4 0 0 0 0", "R 1 4 0 1", &call];
            !findings(&lines).contains(&"4 2 0 0".to_string())
        })
        .collect();
    assert_eq!(
        allowed,
        [
            15, 16, 17, 19, 20, 22, 23, 166, 170, 191, 192, 193, 194, 195, 196, 197, 198, 218, 223,
            225, 227, 228
        ]
    );
}

#[test]
fn a_nonzero_multiple_of_4_in_a_handle_place_is_4() {
    for function in [31, 5, 23, 22, 227] {
        for identity in [4_u64, 4_294_967_296, 18_446_744_073_709_551_612] {
            let call = format!("C 1 100 {function} {identity} 0 0 0");
            let wanted = format!("2 4 1 {identity}");
            assert_eq!(findings(&["N 1 100", &call]), [wanted]);
        }
    }
}

#[test]
fn null_is_a_breach_in_r_i_and_b_alone() {
    for (call, expected) in [
        ("C 1 100 31 0 0 0 0", vec!["2 7 1 0"]),
        ("C 1 100 37 0 0 0 0", vec!["2 7 1 0", "2 7 2 0"]),
        ("C 1 100 67 0 0 0 0", vec!["2 7 1 0", "2 7 2 0", "2 7 3 0"]),
        ("C 1 100 104 0 0 0 0", vec!["2 7 1 0", "2 7 2 0"]),
        ("C 1 100 166 0 0 0 0", vec!["2 7 1 0", "2 7 2 0"]),
        ("C 1 100 32 0 0 0 0", vec!["2 7 2 0"]),
        ("C 1 100 24 0 0 0 0", vec![]),
        ("C 1 100 22 0 0 0 0", vec![]),
        ("C 1 100 23 0 0 0 0", vec![]),
        ("C 1 100 227 0 0 0 0", vec![]),
        ("C 1 100 25 0 0 0 0", vec![]),
    ] {
        assert_eq!(findings(&["N 1 100", call]), expected, "{call}");
    }
}

#[test]
fn a_buffer_has_no_kind() {
    for buffer in [
        1,
        2,
        3,
        4,
        4294967295,
        4294967296,
        18446744073709551612_u64,
        18446744073709551613,
        18446744073709551614,
        18446744073709551615,
    ] {
        let lines = [
            "N 1 100 5".to_string(),
            "C 1 100 165 5 0 0 0".to_string(),
            format!("R 1 165 {buffer} 0"),
            format!("C 1 100 166 5 {buffer} 0 0"),
        ];
        assert!(findings(&strs(&lines)).is_empty());
    }
}

#[test]
fn place_0_gives_a_finding_for_each_rule() {
    let lines = [
        "N 1 100 5",
        "C 1 100 222 5 0 0 0",
        "R 1 222 8 1",
        "C 1 101 20 9 0 0 0",
        "R 1 20 0 1",
        "C 1 101 218 9 0 0 0",
    ];
    assert_eq!(
        findings(&lines),
        [
            "4 1 0 101",
            "4 3 0 0",
            "4 11 0 0",
            "4 11 1 9",
            "6 1 0 101",
            "6 3 0 0",
            "6 9 0 0",
            "6 11 1 9"
        ]
    );
}

#[test]
fn one_line_has_six_findings_at_most_ordered_by_rule_then_place() {
    let (mut judge, _) = judged(&["N 1 100 5", "C 1 100 222 5 0 0 0", "R 1 222 8 1"]);
    let found = judge.step(&line("C 1 101 67 9 6 5 0")).unwrap();
    assert_eq!(
        told(&found),
        [
            "4 1 0 101",
            "4 2 0 0",
            "4 3 0 0",
            "4 4 3 5",
            "4 10 2 6",
            "4 11 1 9"
        ]
    );
}

#[test]
fn z_counts_all_threads_and_critical_buffers_and_is_not_judged_for_rule_3() {
    let lines = [
        "N 1 100 5",
        "N 2 200 5",
        "C 1 100 217 5 0 0 0",
        "R 1 217 0 0",
        "C 2 200 217 5 0 0 0",
        "R 2 217 0 0",
        "C 2 200 217 5 0 0 0",
        "R 2 217 0 0",
        "C 1 100 21 5 0 0 0",
        "R 1 21 6 0",
        "C 2 200 226 5 0 0 0",
        "R 2 226 7 0",
        "C 2 200 226 5 0 0 0",
        "R 2 226 11 0",
        "C 1 100 165 5 0 0 0",
        "R 1 165 8 0",
        "C 2 200 224 5 0 0 0",
        "R 2 224 8 0",
        "Z",
    ];
    assert_eq!(findings(&lines), ["19 8 0 2", "19 9 0 3", "19 10 0 3"]);
}

#[test]
fn findings_carry_the_number_of_the_accepted_line() {
    let mut judge = Judge::new(room(8, 8));
    assert!(judge.step(b"garbage\n").is_err());
    assert!(judge.step(&line("N 1 100")).is_ok());
    assert!(judge.step(&line("N 1 100")).is_err());
    let found = judge.step(&line("C 1 101 4 0 0 0 0")).unwrap();
    assert_eq!(told(&found), ["2 1 0 101"]);
}
