//! The leak list: a record for each outstanding buffer and each global or weak alive, by making line, rule and row.

use crate::common::{room, trace, Lent, TWO_EQUAL_TURNED};
use crate::maker::made_traces;
use plain::lent::book::*;
use plain::lent::slices::Slices;
use plain::report::{report, report_and_leaks};
use plain::room::LENT;

/// The records as `rule thread value line`.
#[track_caller]
fn leaks(lent: &mut Slices) -> Vec<String> {
    let (reply, list) = lent.lists(64);
    let count = usize::try_from(reply).expect("no refusal");
    assert!(list[4 * count..].iter().all(|&number| number == 9));
    list[..4 * count].chunks(4).map(told).collect()
}

fn told(record: &[u64]) -> String {
    let numbers: Vec<String> = record.iter().map(u64::to_string).collect();
    numbers.join(" ")
}

/// The records that lines from a start leave, Z the last of them.
#[track_caller]
fn leaks_after(lines: &[&str]) -> Vec<String> {
    leaks(&mut Slices::after(room(8, 8), &[lines, &["Z"]].concat()))
}

/// Tables that are closed and hold nothing.
fn closed() -> Slices {
    Slices::after(room(8, 8), &["Z"])
}

const NONE: [&str; 0] = [];

// ---- from a start

#[test]
fn where_nothing_is_left_there_is_no_leak() {
    assert_eq!(leaks_after(&[]), NONE);
    let ended = [
        "N 1 100 5",
        "C 1 100 21 5 0 0 0",
        "R 1 21 6 0",
        "C 1 100 22 6 0 0 0",
        "R 1 22 0 0",
        "C 1 100 226 5 0 0 0",
        "R 1 226 7 0",
        "C 1 100 227 7 0 0 0",
        "R 1 227 0 0",
        "C 1 100 165 5 0 0 0",
        "R 1 165 8 0",
        "C 1 100 166 5 8 0 0",
    ];
    assert_eq!(leaks_after(&ended), NONE);
    assert_eq!(closed().lists(0), (0, vec![]));
}

#[test]
fn locals_monitors_and_null_results_are_no_leaks() {
    let lines = [
        "N 1 100 5 9",
        "C 1 100 217 5 0 0 0",
        "R 1 217 0 0",
        "C 1 100 6 0 0 0 0",
        "R 1 6 13 0",
        "C 1 100 21 5 0 0 0",
        "R 1 21 0 0",
        "C 1 100 165 5 0 0 0",
        "R 1 165 0 0",
    ];
    assert_eq!(leaks_after(&lines), NONE);
}

#[test]
fn one_of_each_kind() {
    let lines = [
        "N 3 300 5",
        "C 3 300 21 5 0 0 0",
        "R 3 21 6 0",
        "C 3 300 165 5 0 0 0",
        "R 3 165 8000 0",
        "C 3 300 226 5 0 0 0",
        "R 3 226 7 0",
        "C 3 300 222 5 0 0 0",
        "R 3 222 8001 0",
    ];
    assert_eq!(
        leaks_after(&lines),
        ["10 0 6 3", "8 0 8000 5", "10 0 7 7", "8 3 8001 9"]
    );
    let mut lent = Slices::after(room(8, 8), &lines);
    assert_eq!(lent.accepts("Z"), ["10 8 0 2", "10 10 0 2"]);
}

#[test]
fn the_line_is_that_of_the_r_however_long_after_its_c() {
    let lines = [
        "N 1 100 5",
        "C 1 100 21 5 0 0 0",
        "N 1 100",
        "C 1 100 183 5 0 0 0",
        "N 2 200",
        "R 1 183 8 0",
        "X 1 0",
        "R 1 21 6 0",
    ];
    assert_eq!(leaks_after(&lines), ["8 0 8 6", "10 0 6 8"]);
}

#[test]
fn a_refused_line_has_no_number() {
    let mut lent = Slices::new(room(8, 8));
    assert_eq!(lent.refuses("N 17 100"), 3);
    lent.accepts("N 1 100 5");
    assert_eq!(lent.refuses("R 1 21 6 0"), 4);
    lent.accepts("C 1 100 21 5 0 0 0");
    assert_eq!(lent.refuses(""), 2);
    lent.accepts("R 1 21 6 0");
    lent.accepts("Z");
    assert_eq!(lent.refuses("X 1 0"), 4);
    assert_eq!(lent.refuses("Z"), 4);
    assert_eq!(leaks(&mut lent), ["10 0 6 3"]);
}

#[test]
fn a_condemned_line_makes_and_ends_like_others() {
    let lines = [
        "N 1 100 5",
        "C 1 101 21 9 0 0 0",
        "R 1 21 6 1",
        "C 1 100 165 0 0 0 0",
        "R 1 165 8 1",
        "C 1 101 166 6 8 0 0",
        "R 1 166 0 0",
    ];
    assert_eq!(leaks_after(&lines), ["10 0 6 3"]);
}

const TWO_EQUAL: [&str; 5] = [
    "N 1 100 5",
    "C 1 100 169 5 0 0 0",
    "R 1 169 8 0",
    "C 1 100 169 5 0 0 0",
    "R 1 169 8 0",
];

#[test]
fn two_equal_buffers_are_two_records() {
    assert_eq!(leaks_after(&TWO_EQUAL), ["8 0 8 3", "8 0 8 5"]);
}

#[test]
fn of_two_equal_buffers_the_younger_stays_where_the_older_has_the_lower_row() {
    let lines = [&TWO_EQUAL[..], &["C 1 100 170 5 8 0 0"]].concat();
    assert_eq!(leaks_after(&lines), ["8 0 8 5"]);
}

#[test]
fn of_two_equal_buffers_the_older_stays_where_the_younger_has_the_lower_row() {
    assert_eq!(leaks_after(&TWO_EQUAL_TURNED), ["8 0 8 5", "8 0 8 9"]);
    let lines = [&TWO_EQUAL_TURNED[..], &["C 1 100 170 5 8 0 0"]].concat();
    assert_eq!(leaks_after(&lines), ["8 0 8 5"]);
}

#[test]
fn a_buffer_got_again_in_a_lower_row_is_still_the_last_of_the_list() {
    let again = [
        "C 1 100 170 5 8 0 0",
        "R 1 170 0 0",
        "C 1 100 165 5 0 0 0",
        "R 1 165 9 0",
    ];
    let lines = [&TWO_EQUAL[..], &again].concat();
    let mut lent = Slices::after(room(8, 8), &lines);
    assert_eq!(lent.pins[..8], [0, 0, 9, 9, 0, 1, 8, 5]);
    lent.accepts("Z");
    assert_eq!(leaks(&mut lent), ["8 0 8 5", "8 0 9 9"]);
}

#[test]
fn a_release_in_another_family_ends_no_equal_buffer() {
    let lines = [&TWO_EQUAL[..], &["C 1 100 166 5 8 0 0"]].concat();
    assert_eq!(leaks_after(&lines), ["8 0 8 3", "8 0 8 5"]);
}

#[test]
fn a_handle_ended_and_made_again_has_its_new_line() {
    let lines = [
        "N 1 100 5",
        "C 1 100 21 5 0 0 0",
        "R 1 21 6 0",
        "C 1 100 226 5 0 0 0",
        "R 1 226 7 0",
        "C 1 100 22 6 0 0 0",
        "R 1 22 0 0",
        "C 1 100 21 5 0 0 0",
        "R 1 21 6 0",
    ];
    let mut lent = Slices::after(room(8, 8), &lines);
    assert_eq!(
        lent.rows[..15],
        [1, 5, 1, 1, 0, 0, 6, 0, 9, 0, 0, 7, 0, 5, 0]
    );
    lent.accepts("Z");
    assert_eq!(leaks(&mut lent), ["10 0 7 5", "10 0 6 9"]);
}

#[test]
fn critical_buffers_of_two_threads() {
    let lines = [
        "N 2 200 5",
        "N 1 100 5",
        "C 2 200 222 5 0 0 0",
        "C 1 100 222 5 0 0 0",
        "R 2 222 8 0",
        "R 1 222 8 0",
        "C 2 200 224 5 0 0 0",
        "R 2 224 8 0",
    ];
    assert_eq!(leaks_after(&lines), ["8 2 8 5", "8 1 8 6", "8 2 8 8"]);
    let released = [&lines[..], &["C 1 100 223 5 8 0 0"]].concat();
    assert_eq!(leaks_after(&released), ["8 2 8 5", "8 2 8 8"]);
    let not_its_own = [&lines[..], &["C 1 100 225 5 8 0 0"]].concat();
    assert_eq!(leaks_after(&not_its_own), leaks_after(&lines));
}

#[test]
fn rows_carry_their_making_line_and_n_s_handles_that_of_n() {
    let mut lent = Slices::after(room(8, 8), &["N 2 200", "N 1 100 5 9"]);
    assert_eq!(lent.rows[..10], [1, 5, 1, 2, 0, 1, 9, 1, 2, 0]);
    lent.accepts("C 1 100 222 5 0 0 0");
    lent.accepts("R 1 222 8 0");
    assert_eq!(lent.pins[..4], [1, 10, 8, 4]);
    lent.accepts("C 1 100 223 5 8 0 0");
    lent.accepts("R 1 223 0 0");
    lent.accepts("X 1 0");
    assert_eq!((lent.rows, lent.pins), (vec![0; 40], vec![0; 32]));
}

// ---- refusals and the slice

/// Tables after Z with two leaks.
fn two_leaks() -> Slices {
    Slices::after(room(8, 8), &[&TWO_EQUAL[..], &["Z"]].concat())
}

#[test]
fn numbers_past_the_last_record_stay() {
    for length in [8, 9, 11, 12, 40] {
        let (reply, list) = two_leaks().lists(length);
        assert_eq!(reply, 2);
        assert_eq!(list[..8], [8, 0, 8, 3, 8, 0, 8, 5]);
        assert_eq!(list[8..], vec![9; length - 8]);
    }
}

#[test]
fn a_slice_of_fewer_whole_records_than_leaks_is_7() {
    for length in [0, 1, 4, 7] {
        assert_eq!(two_leaks().lists(length), (-7, vec![9; length]));
    }
}

#[test]
fn before_z_it_is_4_whatever_the_slice() {
    let mut open = Slices::after(room(8, 8), &TWO_EQUAL);
    let mut empty = Slices::new(room(0, 0));
    for length in [0, 7, 8, 40] {
        assert_eq!(open.lists(length), (-4, vec![9; length]));
        assert_eq!(empty.lists(length), (-4, vec![9; length]));
    }
}

#[test]
fn an_unfit_book_is_8_whatever_else() {
    for mut lent in [two_leaks(), Slices::after(room(8, 8), &TWO_EQUAL)] {
        for (column, number) in [(ITEMS, 65), (FRAMES, 65), (MONITORS, 1_000_001)] {
            let mut unfit = lent.clone();
            *unfit.at(16, column) = number;
            for length in [0, 7, 40] {
                assert_eq!(unfit.lists(length), (-8, vec![9; length]));
            }
        }
        let mut unfit = lent.clone();
        *unfit.at(0, LINES) = 1_000_001;
        assert_eq!(unfit.lists(40).0, -8);
        lent.book.truncate(WHOLE - 1);
        assert_eq!(lent.lists(40), (-8, vec![9; 40]));
        lent.book.clear();
        assert_eq!(lent.lists(0), (-8, vec![]));
    }
}

#[test]
fn a_million_lines_are_no_refusal_of_the_list() {
    let mut lent = two_leaks();
    *lent.at(0, LINES) = 1_000_000;
    assert_eq!(lent.refuses("Z"), 1);
    assert_eq!(leaks(&mut lent), ["8 0 8 3", "8 0 8 5"]);
}

#[test]
fn every_number_but_0_is_closed() {
    for number in [1, 2, 1 << 32, u64::MAX] {
        let mut lent = two_leaks();
        *lent.at(0, CLOSED) = number;
        assert_eq!(lent.lists(8).0, 2);
    }
}

// ---- foreign tables

#[test]
fn leaks_of_one_line_are_ordered_by_rule_and_then_by_row() {
    let mut lent = closed();
    lent.put_reference(1, [0, 10, 0, 5]);
    lent.put_reference(3, [0, 6, 0, 5]);
    lent.put_reference(7, [0, 2, 0, 4]);
    lent.put_pin(0, [2, 0, 9, 5]);
    lent.put_pin(2, [1, 0, 9, 5]);
    lent.put_pin(5, [0, 0, 7, 6]);
    assert_eq!(
        leaks(&mut lent),
        [
            "10 0 2 4",
            "8 2 9 5",
            "8 1 9 5",
            "10 0 10 5",
            "10 0 6 5",
            "8 0 7 6"
        ]
    );
}

#[test]
fn the_least_and_the_greatest_line_are_lines_like_others() {
    let mut lent = closed();
    lent.put_pin(0, [0, 0, 1, u64::MAX]);
    lent.put_pin(1, [0, 0, 2, 0]);
    lent.put_pin(2, [0, 0, 3, 1 << 32]);
    lent.put_reference(0, [0, 3, 0, u64::MAX - 1]);
    lent.put_reference(1, [0, 2, 0, 0]);
    lent.put_reference(2, [0, 6, 0, (1 << 32) - 1]);
    assert_eq!(
        leaks(&mut lent),
        [
            "8 0 2 0".to_string(),
            "10 0 2 0".to_string(),
            "10 0 6 4294967295".to_string(),
            "8 0 3 4294967296".to_string(),
            format!("10 0 3 {}", u64::MAX - 1),
            format!("8 0 1 {}", u64::MAX)
        ]
    );
}

#[test]
fn every_used_pin_row_leaks_and_every_used_reference_row_of_thread_0() {
    let mut lent = closed();
    lent.put_pin(0, [17, 99, 0, 1]);
    lent.put_pin(1, [u64::MAX, 0, u64::MAX, 2]);
    lent.put_pin(2, [0, 0, 0, 0]);
    lent.put_reference(0, [0, 5, 1, 3]);
    lent.put_reference(1, [0, 8, u64::MAX, 4]);
    lent.put_reference(2, [0, 0, 0, 0]);
    lent.put_reference(3, [1, 6, 0, 5]);
    lent.put_reference(4, [17, 7, 0, 5]);
    lent.put_reference(5, [1 << 32, 7, 0, 5]);
    assert_eq!(
        leaks(&mut lent),
        [
            "8 0 0 0",
            "10 0 0 0",
            "8 17 0 1",
            "8 18446744073709551615 18446744073709551615 2",
            "10 0 5 3",
            "10 0 8 4"
        ]
    );
}

#[test]
fn rows_that_are_free_or_past_the_room_do_not_leak() {
    let mut lent = closed();
    lent.rows = [0, 6, 0, 1, 9].repeat(8);
    lent.pins = [0, 0, 8, 1].repeat(8);
    assert_eq!(leaks(&mut lent), NONE);
    lent.marks[0] = !0xff;
    lent.pin_marks[0] = !0xff;
    assert_eq!(leaks(&mut lent), NONE);
    lent.marks[0] = u64::MAX;
    lent.pin_marks[0] = u64::MAX;
    lent.rows.truncate(2 * 5 + 4);
    lent.pins.truncate(4 + 3);
    assert_eq!(leaks(&mut lent), ["8 0 8 1", "10 0 6 1", "10 0 6 1"]);
    lent.marks.clear();
    lent.pin_marks.clear();
    assert_eq!(leaks(&mut lent), NONE);
}

#[test]
fn a_room_of_65536_rows_leaks_as_many() {
    let mut lent = closed();
    lent.rows = (0..65_538)
        .flat_map(|row| [0, row, 0, 65_537 - row, row])
        .collect();
    lent.marks = vec![u64::MAX; 1_025];
    assert_eq!(lent.lists(4 * 65_536 - 1).0, -7);
    let (reply, list) = lent.lists(4 * 65_536 + 4);
    assert_eq!(reply, 65_536);
    assert_eq!(list[..8], [10, 0, 65_535, 2, 10, 0, 65_534, 3]);
    assert_eq!(list[4 * 65_535..], [10, 0, 0, 65_537, 9, 9, 9, 9]);
}

// ---- the report with the leaks

#[test]
fn the_leaks_follow_the_report_where_z_was_accepted() {
    let lines = |more: &[&'static str]| trace(&[&TWO_EQUAL[..], more].concat());
    let told = |input: &[u8]| report_and_leaks(input, LENT);
    let leaks = ["leak 8 0 8 3", "leak 8 0 8 5"];
    let closed = [&["6 8 0 2", "end closed 6 0 1"], &leaks[..]].concat();
    assert_eq!(told(&lines(&["Z"])), trace(&closed));
    let refused = [&["6 8 0 2", "end refused 6 2 1"], &leaks[..]].concat();
    assert_eq!(told(&lines(&["Z", "z", "Z"])), trace(&refused));
    assert_eq!(told(&lines(&[])), trace(&["end open 5 0 0"]));
    assert_eq!(told(&lines(&["X 2 0", "Z"])), trace(&["end refused 5 4 0"]));
    assert_eq!(told(b""), trace(&["end open 0 0 0"]));
    assert_eq!(told(b"Z\n"), trace(&["end closed 1 0 0"]));
}

#[test]
fn each_leak_of_a_made_trace_is_what_its_line_makes_and_z_counts_them() {
    let leaks: usize = made_traces(40).map(|trace| assert_leaks(&trace)).sum();
    assert!(leaks > 2_000, "{leaks}");
}

/// How many leaks a trace has. Each names the R that made it; the lines are in order; Z counts those of a rule.
fn assert_leaks(trace: &[u8]) -> usize {
    let whole = report_and_leaks(trace, LENT);
    let report = report(trace, LENT);
    let leaks = whole.strip_prefix(&report[..]).expect("the report first");
    let leaks = fields(leaks);
    let lines = fields(trace);
    let mut last = 0;
    let mut counts = [0; 11];
    for leak in &leaks {
        let [name, rule, thread, value, line] = &leak[..] else {
            panic!("{leak:?}");
        };
        let (rule, number): (usize, usize) = (rule.parse().unwrap(), line.parse().unwrap());
        let [letter, of, function, result, _] = &lines[number - 1][..] else {
            panic!("{:?} made {leak:?}", lines[number - 1]);
        };
        assert_eq!([name, letter, value], ["leak", "R", result]);
        let makes = match (rule, function.as_str()) {
            (8, "222" | "224") => thread == of,
            (8, "165" | "169" | "183" | "184" | "185" | "186" | "187" | "188" | "189" | "190")
            | (10, "21" | "226") => thread == "0",
            _ => false,
        };
        assert!(makes, "{:?} made {leak:?}", lines[number - 1]);
        assert!(number > last, "{leak:?} after line {last}");
        last = number;
        counts[rule] += 1;
    }
    let found = fields(&report);
    let counted = |rule: usize| {
        let of_z = |found: &&Vec<String>| {
            let line = found[0].parse::<usize>().ok();
            found.len() == 4
                && line.is_some_and(|line| lines[line - 1] == ["Z"])
                && found[1] == rule.to_string()
        };
        let found = found.iter().find(of_z);
        found.map_or(0, |found| found[3].parse().unwrap())
    };
    assert_eq!((counts[8], counts[10]), (counted(8), counted(10)));
    leaks.len()
}

fn fields(text: &[u8]) -> Vec<Vec<String>> {
    let text = String::from_utf8_lossy(text);
    let lines = text.split_inclusive('\n');
    let fields = |line: &str| {
        let line = line.strip_suffix('\n').unwrap_or(line);
        line.split('\t').map(str::to_string).collect()
    };
    lines.map(fields).collect()
}
