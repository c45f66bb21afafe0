//! The step order of lines and the refusals 1 and 4 to 7 of the judge.

use crate::common::{findings, judged, judged_with, line, refusal, refusal_with, room, trace};
use plain::judge::Judge;
use plain::make::{make, PROFILES};
use plain::report::report;

/// Lines that take thread 1 down to this many open items.
fn nested(items: usize) -> Vec<&'static str> {
    let pair = ["N 1 100", "C 1 100 4 0 0 0 0"];
    pair.into_iter().cycle().take(items).collect()
}

#[test]
fn n_on_an_empty_stack_or_an_open_call_only() {
    assert_eq!(refusal(&["N 1 100", "N 1 100"]), 4);
    judged(&["N 1 100", "C 1 100 4 0 0 0 0", "N 1 100"]);
    judged(&["N 1 100", "X 1 0", "N 1 100"]);
}

#[test]
fn c_and_x_on_a_native_only() {
    assert_eq!(refusal(&["C 1 100 4 0 0 0 0"]), 4);
    assert_eq!(refusal(&["X 1 0"]), 4);
    let open = ["N 1 100", "C 1 100 4 0 0 0 0"];
    assert_eq!(refusal(&[open[0], open[1], "C 1 100 4 0 0 0 0"]), 4);
    assert_eq!(refusal(&[open[0], open[1], "X 1 0"]), 4);
    assert_eq!(refusal(&["N 1 100", "X 1 0", "X 1 0"]), 4);
    assert_eq!(refusal(&["N 1 100", "X 1 0", "C 1 100 4 0 0 0 0"]), 4);
}

#[test]
fn r_on_an_open_call_of_the_same_function_only() {
    assert_eq!(refusal(&["R 1 4 0 0"]), 4);
    assert_eq!(refusal(&["N 1 100", "R 1 4 0 0"]), 4);
    assert_eq!(refusal(&["N 1 100", "C 1 100 4 0 0 0 0", "R 1 16 0 0"]), 4);
    let twice = ["N 1 100", "C 1 100 4 0 0 0 0", "R 1 4 0 0", "R 1 4 0 0"];
    assert_eq!(refusal(&twice), 4);
}

#[test]
fn stacks_are_the_threads_own() {
    let lines = ["N 1 100", "N 2 200", "C 1 100 4 0 0 0 0", "R 2 4 0 0"];
    assert_eq!(refusal(&lines), 4);
    judged(&[
        "N 1 100",
        "N 2 200",
        "C 1 100 4 0 0 0 0",
        "X 2 0",
        "R 1 4 0 0",
    ]);
}

#[test]
fn nothing_is_allowed_after_z_and_1_2_and_3_still_come_before_4() {
    for (after, expected) in [
        ("Z", 4),
        ("N 1 100", 4),
        ("X 1 0", 4),
        ("C 1 100 4 0 0 0 0", 4),
        ("R 1 4 0 0", 4),
        ("Z 0", 2),
        ("", 2),
        ("N 17 100", 3),
    ] {
        assert_eq!(refusal(&["Z", after]), expected, "{after}");
    }
    let (mut judge, _) = judged(&["Z"]);
    assert_eq!(judge.step(b"Z"), Err(1));
    assert_eq!(judge.step(&[b'Z'; 130]), Err(1));
}

#[test]
fn z_may_come_with_items_open() {
    judged(&["N 1 100", "C 1 100 4 0 0 0 0", "Z"]);
    judged(&["N 1 100", "Z"]);
}

#[test]
fn a_last_line_without_lf_is_1_even_after_z() {
    assert_eq!(report(b"Z", room(1, 1)), trace(&["end refused 0 1 0"]));
    assert_eq!(report(b"Z\nZ", room(1, 1)), trace(&["end refused 1 1 0"]));
    assert_eq!(report(b"Z\n\r", room(1, 1)), trace(&["end refused 1 1 0"]));
    assert_eq!(
        report(b"N\t1\t100\nX\t1\t0", room(1, 1)),
        trace(&["end refused 1 1 0"])
    );
}

#[test]
fn an_overlong_line_is_1_wherever_its_lf_is() {
    for length in [225, 65_535, 65_536, 65_537, 200_000] {
        let mut input = b"N\t1\t100\n".to_vec();
        input.resize(8 + length, b'x');
        assert_eq!(report(&input, room(1, 1)), trace(&["end refused 1 1 0"]));
        input.extend(b"\nZ\n");
        assert_eq!(report(&input, room(1, 1)), trace(&["end refused 1 1 0"]));
    }
    let line = [&[b'x'; 224][..], b"\n"].concat();
    assert_eq!(report(&line, room(1, 1)), trace(&["end refused 0 2 0"]));
}

#[test]
fn lines_are_cut_the_same_wherever_the_reading_breaks_them() {
    let pair = trace(&["N 1 100 5", "C 1 100 31 9 0 0 0", "R 1 31 0 0", "X 1 0"]);
    let input = pair.repeat(20_000);
    let report = String::from_utf8(report(&input, room(8, 1))).unwrap();
    assert!(report.ends_with("79998\t11\t1\t9\nend\topen\t80000\t0\t20000\n"));
}

#[test]
fn line_1000001_is_1_whatever_it_holds_and_counts_accepted_lines() {
    let mut judge = Judge::new(room(0, 0));
    let lines = [line("N 1 100"), line("X 1 0")];
    for index in 0..1_000_000 {
        if index % 100_000 == 0 {
            assert_eq!(judge.step(b"garbage\n"), Err(2));
        }
        assert!(judge.step(&lines[index % 2]).is_ok());
    }
    let full = judge.clone();
    for after in ["N 1 100", "Z", "", "N 17 100", "X 1 0", "N 1 200"] {
        assert_eq!(judge.step(&line(after)), Err(1), "{after}");
    }
    assert_eq!(judge, full);
    assert_eq!(judge.tables().book.lines(), 1_000_000);
}

#[test]
fn an_env_is_its_threads_from_the_first_n_for_ever() {
    assert_eq!(refusal(&["N 1 100", "X 1 0", "N 1 101"]), 5);
    assert_eq!(refusal(&["N 1 100", "C 1 100 4 0 0 0 0", "N 1 101"]), 5);
    assert_eq!(refusal(&["N 1 100", "X 1 0", "N 2 100"]), 5);
    judged(&["N 1 100", "X 1 0", "N 1 100", "N 2 200"]);
}

#[test]
fn a_refused_n_leaves_no_env() {
    let mut judge = Judge::new(room(8, 8));
    assert_eq!(judge.step(&line("N 1 100 5 5")), Err(6));
    assert!(judge.step(&line("N 2 100")).is_ok());
    assert_eq!(judge.step(&line("N 1 100")), Err(5));
    assert!(judge.step(&line("N 1 101")).is_ok());
}

#[test]
fn c_with_a_wrong_env_is_rule_1_and_sets_nothing() {
    let lines = ["N 1 100", "C 1 200 4 0 0 0 0", "R 1 4 0 0", "N 2 200"];
    assert_eq!(findings(&lines), ["2 1 0 200"]);
    let lines = ["N 1 100", "N 2 200", "C 1 200 4 0 0 0 0"];
    assert_eq!(findings(&lines), ["3 1 0 200"]);
}

#[test]
fn a_local_is_made_once_over_every_frame_of_its_thread() {
    assert_eq!(refusal(&["N 1 100 5", "C 1 100 4 0 0 0 0", "N 1 100 5"]), 6);
    assert_eq!(refusal(&["N 1 100 5", "C 1 100 6 0 0 0 0", "R 1 6 5 0"]), 6);
    let pushed = [
        "N 1 100 5",
        "C 1 100 19 0 0 0 4",
        "R 1 19 0 0",
        "C 1 100 6 0 0 0 0",
        "R 1 6 5 0",
    ];
    assert_eq!(refusal(&pushed), 6);
    judged(&["N 1 100 5", "N 2 200 5", "C 1 100 6 0 0 0 0", "R 1 6 9 0"]);
}

#[test]
fn a_global_or_weak_is_made_once_over_all_threads() {
    for (function, handle) in [(21, 6), (226, 7)] {
        let lines = [
            "N 1 100 5".to_string(),
            format!("C 1 100 {function} 5 0 0 0"),
            format!("R 1 {function} {handle} 0"),
            "N 2 200 5".to_string(),
            format!("C 2 200 {function} 5 0 0 0"),
            format!("R 2 {function} {handle} 0"),
        ];
        assert_eq!(refusal(&lines.each_ref().map(String::as_str)), 6);
    }
}

#[test]
fn n_naming_a_handle_twice_is_6() {
    assert_eq!(refusal(&["N 1 100 1 5 9 13 17 21 25 1"]), 6);
}

#[test]
fn a_handle_may_be_made_again_once_it_has_ended() {
    judged(&["N 1 100 5", "X 1 0", "N 1 100 5"]);
    let lines = [
        "N 1 100 5",
        "C 1 100 23 5 0 0 0",
        "R 1 23 0 0",
        "C 1 100 6 0 0 0 0",
        "R 1 6 5 0",
        "C 1 100 31 5 0 0 0",
    ];
    assert!(findings(&lines).is_empty());
}

#[test]
fn r_of_20_may_make_again_what_its_own_c_ended() {
    let lines = [
        "N 1 100",
        "C 1 100 19 0 0 0 4",
        "R 1 19 0 0",
        "C 1 100 6 0 0 0 0",
        "R 1 6 5 0",
        "C 1 100 20 5 0 0 0",
        "R 1 20 5 0",
        "X 1 5",
    ];
    assert!(findings(&lines).is_empty());
}

#[test]
fn refusals_are_tested_in_their_order() {
    let open = "N 1 100 5";
    assert_eq!(refusal_with(room(1, 0), &[open, "N 1 101 9 9"]), 4);
    let call = "C 1 100 6 0 0 0 0";
    assert_eq!(refusal_with(room(1, 0), &[open, call, "N 1 101 9 9"]), 5);
    assert_eq!(refusal_with(room(1, 0), &[open, call, "N 1 100 9 9"]), 6);
    assert_eq!(refusal_with(room(1, 0), &[open, call, "N 1 100 5"]), 6);
    assert_eq!(refusal_with(room(1, 0), &[open, call, "N 1 100 9"]), 7);
    assert_eq!(refusal_with(room(1, 0), &[open, call, "R 1 6 5 0"]), 6);
    assert_eq!(refusal_with(room(1, 0), &[open, call, "R 1 6 9 0"]), 7);
}

#[test]
fn handles_fill_the_room_to_the_last_row() {
    judged_with(room(3, 0), &["N 1 100 1 5 9"]);
    assert_eq!(refusal_with(room(2, 0), &["N 1 100 1 5 9"]), 7);
    let mut lines = vec!["N 1 100 1 5", "C 1 100 21 1 0 0 0", "R 1 21 2 0"];
    judged_with(room(3, 0), &lines);
    lines.extend(["C 1 100 226 1 0 0 0", "R 1 226 3 0"]);
    assert_eq!(refusal_with(room(3, 0), &lines), 7);
    judged_with(room(4, 0), &lines);
}

#[test]
fn ns_handles_are_all_or_nothing() {
    let (mut judge, _) = judged_with(room(2, 0), &["N 1 100 5"]);
    assert_eq!(judge.step(&line("N 2 200 5 9")), Err(7));
    assert_eq!(judge.tables().references.rows.used(), 1);
    assert!(judge.step(&line("N 2 200 5")).is_ok());
}

#[test]
fn buffers_fill_the_room_to_the_last_row() {
    let lines = [
        "N 1 100 5",
        "C 1 100 165 5 0 0 0",
        "R 1 165 8 0",
        "C 1 100 222 5 0 0 0",
        "R 1 222 8 0",
    ];
    judged_with(room(1, 2), &lines);
    assert_eq!(refusal_with(room(1, 1), &lines), 7);
}

#[test]
fn a_null_result_a_failed_push_and_a_bare_n_pass_when_all_is_full() {
    for (call, result) in [
        ("C 1 100 6 0 0 0 0", "R 1 6 0 0"),
        ("C 1 100 21 0 0 0 0", "R 1 21 0 0"),
        ("C 1 100 226 0 0 0 0", "R 1 226 0 0"),
        ("C 1 100 165 5 0 0 0", "R 1 165 0 0"),
        ("C 1 100 222 5 0 0 0", "R 1 222 0 0"),
        ("C 1 100 31 5 0 0 0", "R 1 31 0 1"),
        ("C 1 100 7 5 0 0 0", "R 1 7 8 0"),
    ] {
        judged_with(room(1, 0), &["N 1 100 5", call, result]);
    }
    judged_with(
        room(1, 0),
        &["N 1 100 5", "C 1 100 4 0 0 0 0", "N 1 100", "N 2 200"],
    );
    let mut frames = vec!["N 1 100"];
    for _ in 1..64 {
        frames.extend(["C 1 100 19 0 0 0 1", "R 1 19 0 0"]);
    }
    frames.push("C 1 100 19 0 0 0 1");
    assert_eq!(refusal(&[&frames[..], &["R 1 19 0 0"]].concat()), 7);
    for status in ["-1", "1", "-2147483648", "2147483647"] {
        let failed = format!("R 1 19 {status} 0");
        judged(&[&frames[..], &[&failed]].concat());
    }
}

#[test]
fn a_thread_has_at_most_64_open_items() {
    judged(&nested(64));
    assert_eq!(refusal(&[&nested(64)[..], &["N 1 100"]].concat()), 7);
    judged(&[&nested(64)[..], &["R 1 4 0 0", "X 1 0"]].concat());
    judged(&[&nested(64)[..], &["N 2 200"]].concat());
}

#[test]
fn a_thread_has_at_most_64_frames() {
    let push = ["C 1 100 19 0 0 0 1", "R 1 19 0 0"];
    let mut lines = vec!["N 1 100"];
    for _ in 1..64 {
        lines.extend(push);
    }
    let (mut judge, _) = judged(&lines);
    assert_eq!(judge.tables().book.frames(1), 64);
    lines.push("C 1 100 4 0 0 0 0");
    assert_eq!(refusal(&[&lines[..], &["N 1 100"]].concat()), 7);
    lines.extend(["R 1 4 0 0", "C 1 100 20 0 0 0 0", "N 1 100"]);
    judged(&lines);
}

#[test]
fn room_is_at_most_65536_rows() {
    let mut judge = Judge::new(room(1_000_000, 65_537));
    assert_eq!(judge.tables().references.rows.free(), 65_536);
    assert_eq!(judge.tables().pins.rows.free(), 65_536);
}

#[test]
fn a_refused_line_changes_nothing_and_the_judge_goes_on() {
    let mut refused = 0;
    for (seed, profile) in (1..).zip(&PROFILES) {
        let trace = make(profile, seed, 200, room(6, 3));
        let mut judge = Judge::new(room(6, 3));
        for line in trace.split_inclusive(|&byte| byte == b'\n') {
            for other in [line, b"N\t1\t1\t1\t5\n", b"X\t2\t0\n", b"R\t1\t6\t5\t0\n"] {
                let before = judge.clone();
                if judge.step(other).is_err() {
                    assert_eq!(judge, before);
                    refused += 1;
                }
            }
        }
    }
    assert!(refused > 1_000);
}
