//! Lent tables with foreign contents: what each number means, and that none leads astray.

use crate::common::{line, room, Lent};
use plain::lent::book::*;
use plain::lent::reply::{reply, MOST_NUMBERS, SHORT_FOUND};
use plain::lent::rows::WORD;
use plain::lent::slices::Slices;
use plain::limits::{PIN_NUMBERS, REFERENCE_NUMBERS};

/// Tables in which thread 1, of env 100, is in a native and has made nothing.
fn in_native() -> Slices {
    Slices::after(room(8, 8), &["N 1 100"])
}

/// Tables in which thread 1 has called a function.
fn in_call(function: u32) -> Slices {
    let call = format!("C 1 100 {function} 0 0 0 0");
    Slices::after(room(8, 8), &["N 1 100", &call])
}

/// Whether a step refuses the tables for their book, whatever the line.
#[track_caller]
fn is_unfit(lent: &mut Slices) -> bool {
    let refusals =
        ["N 2 200", "Z", "N 17 01", ""].map(|text| lent.clone().tested_step(&line(text)));
    let unfit = refusals.iter().all(|stepped| *stepped == Err(8));
    let fit = refusals.iter().all(|stepped| *stepped != Err(8));
    assert!(unfit != fit, "{refusals:?}");
    unfit
}

// ---- refusal 8

#[test]
fn a_short_book_is_8() {
    for length in [0, 1, WIDTH, WHOLE - 1] {
        let mut lent = in_native();
        lent.book.truncate(length);
        assert!(is_unfit(&mut lent), "{length}");
    }
    let mut lent = in_native();
    lent.book.extend([u64::MAX; 300]);
    assert!(!is_unfit(&mut lent));
    lent.accepts("X 1 0");
    assert_eq!(lent.book[WHOLE..], [u64::MAX; 300]);
}

#[test]
fn over_64_items_are_8() {
    for thread in [1, 16] {
        let mut lent = in_native();
        *lent.at(thread, FRAMES) = 1;
        *lent.at(thread, ITEMS) = 64;
        assert!(!is_unfit(&mut lent));
        for items in [65, 1 << 32, u64::MAX] {
            *lent.at(thread, ITEMS) = items;
            assert!(is_unfit(&mut lent));
        }
    }
}

#[test]
fn over_64_frames_are_8() {
    for thread in [1, 16] {
        let mut lent = in_native();
        *lent.at(thread, FRAMES) = 64;
        assert!(!is_unfit(&mut lent));
        for frames in [65, 1 << 32, u64::MAX] {
            *lent.at(thread, FRAMES) = frames;
            assert!(is_unfit(&mut lent));
        }
    }
}

#[test]
fn more_natives_than_frames_are_8() {
    for thread in [2, 16] {
        let mut lent = in_native();
        *lent.at(thread, ITEMS) = 64;
        for frames in 1..=64 {
            *lent.at(thread, FRAMES) = frames;
            let few = u64::MAX >> (64 - frames);
            for marks in [0, few, few << (64 - frames), few.reverse_bits()] {
                *lent.at(thread, NATIVES) = marks;
                assert!(!is_unfit(&mut lent));
            }
            for index in frames..64 {
                *lent.at(thread, NATIVES) = few | 1 << index;
                assert!(is_unfit(&mut lent));
            }
        }
    }
}

#[test]
fn open_items_in_a_thread_without_a_frame_are_8() {
    for thread in [2, 16] {
        let mut lent = in_native();
        *lent.at(thread, ITEMS) = 1;
        assert!(is_unfit(&mut lent));
        *lent.at(thread, FRAMES) = 1;
        assert!(!is_unfit(&mut lent));
    }
}

#[test]
fn a_monitor_count_over_1000000_is_8() {
    for thread in [1, 16] {
        let mut lent = in_native();
        *lent.at(thread, MONITORS) = 1_000_000;
        assert!(!is_unfit(&mut lent));
        for monitors in [1_000_001, 1 << 32, u64::MAX] {
            *lent.at(thread, MONITORS) = monitors;
            assert!(is_unfit(&mut lent));
        }
    }
}

#[test]
fn a_line_count_over_1000000_is_8_and_that_many_are_1() {
    let mut lent = in_native();
    *lent.at(0, LINES) = 1_000_000;
    assert!(!is_unfit(&mut lent));
    for text in ["X 1 0", "Z", "N 17 01", ""] {
        assert_eq!(lent.refuses(text), 1);
    }
    for lines in [1_000_001, 1 << 32, u64::MAX] {
        *lent.at(0, LINES) = lines;
        assert!(is_unfit(&mut lent));
    }
    *lent.at(0, LINES) = 999_999;
    assert_eq!(lent.accepts("X 1 6"), ["1000000 10 1 6"]);
    assert_eq!(*lent.at(0, LINES), 1_000_000);
    assert_eq!(lent.refuses("N 1 100"), 1);
}

#[test]
fn row_0_has_no_items_frames_or_monitors() {
    let mut lent = in_native();
    lent.book[2..WIDTH].fill(u64::MAX);
    assert!(!is_unfit(&mut lent));
    assert!(lent.accepts("X 1 0").is_empty());
    assert!(lent.accepts("Z").is_empty());
    assert!(lent.book[2..WIDTH].iter().all(|&number| number == u64::MAX));
}

#[test]
fn a_million_and_first_monitor_makes_the_book_unfit() {
    let mut lent = in_call(217);
    *lent.at(1, MONITORS) = 1_000_000;
    lent.accepts("R 1 217 0 0");
    assert_eq!(*lent.at(1, MONITORS), 1_000_001);
    assert!(is_unfit(&mut lent));
}

#[test]
fn z_sums_the_monitors_of_all_threads() {
    let mut lent = in_native();
    for thread in 1..=16 {
        *lent.at(thread, MONITORS) = 1_000_000;
    }
    assert_eq!(lent.accepts("Z"), ["2 9 0 16000000"]);
}

// ---- rows, marks and room

#[test]
fn a_row_marked_past_the_room_is_no_row() {
    let mut lent = in_native();
    lent.marks[0] |= 0xffff_0000_0000_0000;
    lent.pin_marks[0] |= 0xffff_0000_0000_0000;
    let (marks, pin_marks) = (lent.marks.clone(), lent.pin_marks.clone());
    assert!(lent.clone().accepts("Z").is_empty());
    assert_eq!(lent.accepts("X 1 5"), ["2 11 1 5"]);
    assert_eq!((&lent.marks, &lent.pin_marks), (&marks, &pin_marks));
    assert_eq!(lent.refuses("N 1 100 1 5 9 13 17 21 25 29 33"), 2);
    lent.accepts("N 1 100 1 5 9 13 17 21 25 29");
    assert_eq!(lent.marks[0], 0xffff_0000_0000_00ff);
    lent.accepts("C 1 100 6 0 0 0 0");
    assert_eq!(lent.refuses("R 1 6 33 0"), 7);
}

#[test]
fn marks_longer_than_rows_leave_the_room_to_the_rows() {
    let mut lent = in_native();
    lent.marks = vec![u64::MAX; 5];
    lent.marks[0] = 0x7f;
    lent.accepts("C 1 100 6 0 0 0 0");
    lent.accepts("R 1 6 5 0");
    assert_eq!(lent.marks, [0xff, u64::MAX, u64::MAX, u64::MAX, u64::MAX]);
    assert_eq!(lent.rows[7 * REFERENCE_NUMBERS..], [1, 5, 1, 3, 0]);
    lent.accepts("C 1 100 6 0 0 0 0");
    assert_eq!(lent.refuses("R 1 6 9 0"), 7);
}

#[test]
fn rows_longer_than_marks_leave_the_room_to_the_marks() {
    let mut lent = in_native();
    lent.rows = vec![5; 100 * REFERENCE_NUMBERS];
    lent.marks = vec![u64::MAX >> 1];
    lent.rows[64 * REFERENCE_NUMBERS..][..REFERENCE_NUMBERS].copy_from_slice(&[1, 9, 1, 7, 4]);
    assert_eq!(lent.clone().accepts("C 1 100 31 9 0 0 0"), ["2 11 1 9"]);
    lent.accepts("C 1 100 6 0 0 0 0");
    lent.accepts("R 1 6 9 0");
    assert_eq!(
        lent.rows[63 * REFERENCE_NUMBERS..][..REFERENCE_NUMBERS],
        [1, 9, 1, 3, 0]
    );
    assert_eq!(lent.marks, [u64::MAX]);
    lent.accepts("C 1 100 6 0 0 0 0");
    assert_eq!(lent.refuses("R 1 6 13 0"), 7);
    lent.accepts("R 1 6 0 0");
    lent.accepts("X 1 0");
    assert_eq!(
        lent.rows[63 * REFERENCE_NUMBERS..][..REFERENCE_NUMBERS],
        [0; REFERENCE_NUMBERS]
    );
    assert_eq!(
        lent.rows[64 * REFERENCE_NUMBERS..][..REFERENCE_NUMBERS],
        [1, 9, 1, 7, 4]
    );
    assert_eq!(
        lent.rows[65 * REFERENCE_NUMBERS..],
        [5; 35 * REFERENCE_NUMBERS]
    );
}

#[test]
fn numbers_past_the_last_whole_row_are_no_row() {
    for odd in [1, 2, 3, 4] {
        let mut lent = in_native();
        lent.rows.extend(vec![1; odd]);
        lent.pins.extend(vec![1; odd % PIN_NUMBERS]);
        lent.marks[0] = 0xff;
        lent.pin_marks[0] = 0xff;
        lent.accepts("C 1 100 6 0 0 0 0");
        assert_eq!(lent.refuses("R 1 6 5 0"), 7);
        assert_eq!(lent.accepts("R 1 6 0 0"), [] as [&str; 0]);
        lent.accepts("X 1 0");
        assert_eq!(lent.rows[8 * REFERENCE_NUMBERS..], vec![1; odd]);
        assert_eq!(lent.pins[8 * PIN_NUMBERS..], vec![1; odd % PIN_NUMBERS]);
    }
}

#[test]
fn over_65536_rows_the_room_is_65536() {
    let mut lent = in_native();
    lent.rows = vec![0; 65_540 * REFERENCE_NUMBERS];
    lent.marks = vec![u64::MAX; 1_025];
    lent.marks[1_023] = u64::MAX >> 1;
    lent.marks[1_024] = 0;
    lent.accepts("C 1 100 6 0 0 0 0");
    lent.accepts("R 1 6 5 0");
    assert_eq!(
        lent.rows[65_535 * REFERENCE_NUMBERS..][..REFERENCE_NUMBERS],
        [1, 5, 1, 3, 0]
    );
    lent.accepts("C 1 100 6 0 0 0 0");
    assert_eq!(lent.refuses("R 1 6 9 0"), 7);
    assert_eq!(lent.marks[1_024], 0);
    assert_eq!(lent.accepts("Z"), ["5 10 0 65535"]);
}

#[test]
fn empty_slices_have_no_room() {
    let mut lent = Slices::new(room(0, 0));
    lent.accepts("N 1 100");
    lent.accepts("C 1 100 165 0 0 0 0");
    assert_eq!(lent.refuses("R 1 165 8 0"), 7);
    lent.accepts("R 1 165 0 0");
    assert_eq!(lent.refuses("N 2 200 5"), 7);
    lent.book.clear();
    assert_eq!(lent.refuses("Z"), 8);
    lent.start();
    assert_eq!(lent.refuses("Z"), 8);
}

#[test]
fn rows_without_marks_and_marks_without_rows_are_no_room() {
    let mut lent = Slices::new(room(8, 8));
    lent.marks.clear();
    lent.pins.clear();
    assert_eq!(lent.refuses("N 1 100 5"), 7);
    lent.accepts("N 1 100");
    lent.accepts("C 1 100 165 0 0 0 0");
    assert_eq!(lent.refuses("R 1 165 8 0"), 7);
}

#[test]
fn an_unmarked_row_is_free_whatever_it_holds() {
    let mut lent = in_native();
    lent.rows = [1, 5, 1, 7, 3].repeat(8);
    lent.pins = [1, 10, 8, 7].repeat(8);
    assert_eq!(lent.clone().accepts("X 1 5"), ["2 11 1 5"]);
    lent.accepts("C 1 100 6 0 0 0 0");
    lent.accepts("R 1 6 5 0");
    assert_eq!(lent.marks, [1]);
    lent.accepts("X 1 0");
    assert_eq!(lent.rows[..REFERENCE_NUMBERS], [0; REFERENCE_NUMBERS]);
    assert_eq!(lent.rows[REFERENCE_NUMBERS..], [1, 5, 1, 7, 3].repeat(7));
}

#[test]
fn of_equal_rows_the_lowest_is_ended() {
    let mut lent = in_native();
    for (index, line) in [(2, 9), (5, 3), (7, 0)] {
        lent.put_reference(index, [1, 5, 1, line]);
        lent.put_pin(index, [0, 3, 8, line]);
    }
    lent.put_reference(1, [2, 5, 1, 7]);
    lent.put_pin(1, [1, 3, 8, 7]);
    for (marks, findings) in [
        (0b1010_0010, vec![]),
        (0b1000_0010, vec![]),
        (0b0000_0010, vec![]),
        (0b0000_0010, vec!["8 11 1 5"]),
    ] {
        assert_eq!(
            lent.accepts("C 1 100 23 5 0 0 0")
                .into_iter()
                .filter(|found| !found.contains(" 3 0 "))
                .collect::<Vec<_>>(),
            findings
        );
        lent.accepts("R 1 23 0 0");
        assert_eq!(lent.marks, [marks]);
    }
    lent.accepts("C 1 100 192 0 8 0 0");
    assert_eq!(lent.pin_marks, [0b1010_0010]);
    assert_eq!(lent.pins[2 * PIN_NUMBERS..][..PIN_NUMBERS], [0; 4]);
}

#[test]
fn a_row_of_thread_17_is_no_thread_s_but_counts() {
    let mut lent = in_native();
    lent.put_reference(0, [17, 5, 1, 7]);
    lent.put_reference(1, [u64::MAX, 6, 0, 7]);
    lent.put_pin(0, [17, 10, 8, 7]);
    assert_eq!(lent.accepts("C 1 100 225 5 8 0 0"), ["2 8 2 8", "2 11 1 5"]);
    lent.accepts("R 1 225 0 0");
    assert_eq!(lent.accepts("C 1 100 22 6 0 0 0"), ["4 10 1 6"]);
    lent.accepts("R 1 22 0 0");
    lent.accepts("X 1 0");
    assert_eq!((&lent.marks[..], &lent.pin_marks[..]), (&[3][..], &[1][..]));
    assert_eq!(lent.accepts("Z"), ["7 8 0 1"]);
}

#[test]
fn a_row_of_thread_0_is_a_global_or_weak_whatever_its_handle() {
    let mut lent = in_native();
    lent.put_reference(0, [0, 5, 1, 7]);
    lent.put_reference(1, [0, 0, 9, 7]);
    lent.put_reference(2, [0, 6, 7, 7]);
    assert_eq!(lent.accepts("C 1 100 24 5 6 0 0"), ["2 11 1 5"]);
    lent.accepts("R 1 24 0 0");
    assert_eq!(lent.accepts("C 1 100 23 5 0 0 0"), ["4 11 1 5"]);
    lent.accepts("R 1 23 0 0");
    lent.accepts("C 1 100 22 6 0 0 0");
    assert_eq!(lent.marks, [3]);
    assert_eq!(lent.accepts("Z"), ["7 10 0 2"]);
}

#[test]
fn a_global_in_a_row_of_a_thread_is_a_local_of_it() {
    let mut lent = in_native();
    lent.put_reference(0, [1, 6, 1, 7]);
    assert_eq!(lent.accepts("C 1 100 22 6 0 0 0"), ["2 10 1 6"]);
    lent.accepts("R 1 22 0 0");
    assert_eq!(lent.marks, [1]);
    lent.accepts("X 1 0");
    assert_eq!(lent.marks, [0]);
    assert_eq!(lent.rows, [0; 8 * REFERENCE_NUMBERS]);
}

#[test]
fn a_pin_row_of_a_thread_is_critical_whatever_its_family() {
    let mut lent = in_native();
    lent.put_pin(0, [1, 0, 8, 7]);
    lent.put_pin(1, [0, 10, 8, 7]);
    assert_eq!(
        lent.accepts("C 1 100 166 6 8 0 0"),
        ["2 3 0 0", "2 8 2 8", "2 10 1 6"]
    );
    lent.accepts("R 1 166 0 0");
    assert_eq!(lent.accepts("C 1 100 223 6 8 0 0"), ["4 8 2 8", "4 10 1 6"]);
    assert_eq!(lent.pin_marks, [3]);
}

#[test]
fn a_null_buffer_in_a_row_is_released_by_a_null() {
    let mut lent = in_native();
    lent.put_pin(1, [0, 0, 0, 7]);
    assert_eq!(lent.accepts("C 1 100 166 6 0 0 0"), ["2 7 2 0", "2 10 1 6"]);
    assert_eq!(lent.pin_marks, [0]);
}

#[test]
fn frames_of_rows_above_the_top_end_with_it() {
    let mut lent = in_native();
    lent.put_reference(0, [1, 5, 0, 7]);
    lent.put_reference(1, [1, 9, 1, 7]);
    lent.put_reference(2, [1, 13, u64::MAX, 7]);
    lent.put_reference(3, [2, 13, u64::MAX, 7]);
    lent.accepts("X 1 0");
    assert_eq!(lent.marks, [0b1001]);
}

// ---- the thread book

#[test]
fn a_popped_cell_keeps_its_number_and_is_never_read() {
    let mut lent = in_native();
    for column in CAPACITIES + 1..PUSHED {
        *lent.at(1, column) = u64::MAX;
    }
    for column in PUSHED + 1..ITEMS {
        *lent.at(1, column) = 1;
    }
    for column in (FUNCTIONS + 1..ASKED).chain(ASKED + 1..WIDTH) {
        *lent.at(1, column) = 6;
    }
    *lent.at(1, NATIVES) = u64::MAX;
    assert_eq!(lent.accepts("C 1 100 20 0 0 0 0"), ["2 11 0 0"]);
    lent.accepts("R 1 20 0 0");
    lent.accepts("C 1 100 19 0 0 0 3");
    lent.accepts("R 1 19 0 0");
    assert_eq!(*lent.at(1, CAPACITIES + 1), 3);
    assert_eq!(*lent.at(1, CAPACITIES + 2), u64::MAX);
    lent.accepts("X 1 0");
    assert_eq!(*lent.at(1, FRAMES), 0);
    assert_eq!(*lent.at(1, CAPACITIES + 1), 3);
    assert_eq!(*lent.at(1, FUNCTIONS + 1), 19);
    assert_eq!(*lent.at(1, ASKED + 1), 3);
    assert_eq!(*lent.at(1, NATIVES), u64::MAX - 2);
    assert_eq!(lent.refuses("R 1 6 0 0"), 4);
}

#[test]
fn a_capacity_has_all_64_bits() {
    for capacity in [1 << 32, (1 << 32) + 1, u64::MAX] {
        let mut lent = in_call(6);
        *lent.at(1, CAPACITIES) = capacity;
        assert!(lent.accepts("R 1 6 5 0").is_empty());
        lent.accepts("C 1 100 26 0 0 0 2147483647");
        lent.accepts("R 1 26 0 0");
        assert_eq!(*lent.at(1, CAPACITIES), capacity);
    }
    let mut lent = in_call(6);
    *lent.at(1, CAPACITIES) = 0;
    assert_eq!(lent.accepts("R 1 6 5 0"), ["3 11 0 5"]);
}

#[test]
fn what_was_asked_is_read_through_32_bits() {
    for (asked, capacity) in [
        (3, 3),
        ((1 << 32) + 3, 3),
        (u64::MAX, u32::MAX.into()),
        (1 << 32, 0),
    ] {
        let mut lent = in_call(19);
        *lent.at(1, ASKED + 1) = asked;
        lent.accepts("R 1 19 0 0");
        assert_eq!(*lent.at(1, CAPACITIES + 1), capacity);
    }
    let mut lent = in_call(26);
    *lent.at(1, ASKED + 1) = u64::MAX;
    lent.put_reference(0, [1, 5, 1, 7]);
    lent.accepts("R 1 26 0 0");
    assert_eq!(*lent.at(1, CAPACITIES), 1 << 32);
}

#[test]
fn a_function_is_read_through_32_bits_and_a_native_by_its_mark() {
    let mut lent = in_call(6);
    *lent.at(1, FUNCTIONS + 1) = (7 << 32) + 6;
    lent.accepts("R 1 6 0 0");
    *lent.at(1, FUNCTIONS) = 6;
    lent.clone().accepts("X 1 0");
    *lent.at(1, FUNCTIONS) = OF_NATIVE;
    *lent.at(1, NATIVES) = !1;
    assert_eq!(lent.refuses("X 1 0"), 4);
    assert_eq!(lent.refuses("C 1 100 4 0 0 0 0"), 4);
    lent.accepts("N 1 100");
    assert_eq!(*lent.at(1, NATIVES), !1);
}

#[test]
fn an_env_has_all_64_bits() {
    let mut lent = in_native();
    *lent.at(1, ENV) = (1 << 32) + 100;
    assert_eq!(lent.accepts("C 1 100 4 0 0 0 0"), ["2 1 0 100"]);
    assert_eq!(lent.refuses("N 1 100"), 5);
    lent.accepts("N 2 100");
    let mut lent = in_native();
    *lent.at(1, ENV) = 1 << 32;
    lent.accepts("X 1 0");
    assert_eq!(lent.refuses("N 1 100"), 5);
}

#[test]
fn an_env_that_another_thread_has_is_5_though_it_is_the_thread_s_own() {
    let mut lent = Slices::new(room(8, 8));
    *lent.at(1, ENV) = 100;
    lent.clone().accepts("N 1 100");
    *lent.at(2, ENV) = 100;
    assert_eq!(lent.refuses("N 1 100"), 5);
    *lent.at(2, ENV) = 0;
    *lent.at(0, ENV) = 100;
    lent.accepts("N 1 100");
}

#[test]
fn only_1_is_pending() {
    for (pending, findings) in [
        (0, vec![]),
        (1, vec!["2 2 0 0"]),
        (2, vec![]),
        ((1 << 32) + 1, vec![]),
        (u64::MAX, vec![]),
    ] {
        let mut lent = in_native();
        *lent.at(1, PENDING) = pending;
        assert_eq!(lent.accepts("C 1 100 6 0 0 0 0"), findings);
        assert_eq!(*lent.at(1, PENDING), pending);
        lent.accepts("R 1 6 0 1");
        assert_eq!(*lent.at(1, PENDING), 1);
    }
}

#[test]
fn every_number_but_0_is_closed() {
    for closed in [1, 2, 1 << 32, u64::MAX] {
        let mut lent = in_native();
        *lent.at(0, CLOSED) = closed;
        assert_eq!(lent.refuses("X 1 0"), 4);
        assert_eq!(lent.refuses("Z"), 4);
        assert_eq!(lent.refuses("N 17 100"), 3);
    }
}

#[test]
fn every_number_but_0_is_pushed() {
    for pushed in [1, 2, 1 << 32, u64::MAX] {
        let mut lent = in_native();
        *lent.at(1, PUSHED) = pushed;
        lent.put_reference(0, [1, 5, 1, 7]);
        assert!(lent.accepts("C 1 100 20 0 0 0 0").is_empty());
        assert_eq!(*lent.at(1, FRAMES), 0);
        assert_eq!(lent.marks, [0]);
    }
}

#[test]
fn popping_the_only_frame_leaves_an_unfit_book() {
    let mut lent = in_native();
    *lent.at(1, PUSHED) = 1;
    lent.accepts("C 1 100 20 0 0 0 0");
    assert_eq!(lent.refuses("R 1 20 0 0"), 8);
}

#[test]
fn x_over_pushed_frames_alone_ends_them_all() {
    let mut lent = in_native();
    *lent.at(1, FRAMES) = 3;
    for frame in 0..3 {
        *lent.at(1, PUSHED + frame) = 9;
    }
    lent.put_reference(0, [1, 5, 0, 7]);
    lent.put_reference(1, [1, 9, 1, 7]);
    lent.put_reference(2, [1, 13, 3, 7]);
    lent.accepts("X 1 0");
    assert_eq!(*lent.at(1, FRAMES), 0);
    assert_eq!(lent.marks, [1]);
}

#[test]
fn two_natives_in_one_frame_are_8_before_one_of_them_ends() {
    let mut lent = in_native();
    *lent.at(1, ITEMS) = 2;
    *lent.at(1, NATIVES) = 3;
    assert_eq!(lent.refuses("X 1 0"), 8);
    *lent.at(1, FRAMES) = 2;
    lent.accepts("X 1 0");
    lent.accepts("X 1 0");
}

#[test]
fn natives_above_the_open_items_are_none() {
    let mut lent = in_native();
    lent.accepts("X 1 0");
    *lent.at(1, FRAMES) = 1;
    *lent.at(1, NATIVES) = u64::MAX;
    lent.clone().accepts("Z");
    lent.accepts("N 1 100");
    lent.accepts("X 1 0");
    lent.accepts("Z");
}

#[test]
fn a_call_may_be_item_65_in_a_foreign_book() {
    let mut lent = in_native();
    *lent.at(1, NATIVES) = 3 << 62;
    *lent.at(1, FRAMES) = 2;
    *lent.at(1, ITEMS) = 64;
    assert_eq!(lent.refuses("C 1 100 4 0 0 0 0"), 7);
    lent.clone().accepts("X 1 0");
    *lent.at(1, ITEMS) = 63;
    lent.accepts("C 1 100 4 0 0 0 0");
    assert_eq!(*lent.at(1, ITEMS), 64);
    assert_eq!(lent.refuses("N 1 100"), 7);
    lent.accepts("R 1 4 0 0");
}

#[test]
fn frames_may_be_left_without_items() {
    let mut lent = Slices::new(room(8, 8));
    *lent.at(1, FRAMES) = 64;
    assert_eq!(lent.refuses("N 1 100"), 7);
    *lent.at(1, FRAMES) = 63;
    lent.accepts("N 1 100 5");
    assert_eq!(lent.rows[..REFERENCE_NUMBERS], [1, 5, 64, 1, 0]);
    lent.accepts("C 1 100 19 0 0 0 1");
    assert_eq!(lent.refuses("R 1 19 0 0"), 7);
    lent.accepts("R 1 19 -1 0");
}

// ---- start and reply

#[test]
fn a_start_clears_every_number() {
    let mut lent = Slices {
        rows: vec![7; 11],
        marks: vec![7; 5],
        pins: vec![7; 1],
        pin_marks: vec![7; 2],
        book: vec![7; WHOLE + 3],
        classes: vec![7; 4_097],
    };
    for (length, classes) in [(WHOLE + 3, 4_097), (WHOLE - 1, 4_094), (1, 1)] {
        lent.book.truncate(length);
        lent.book.fill(7);
        lent.classes.truncate(classes);
        lent.classes.fill(7);
        lent.start();
        assert_eq!(lent.classes.len(), classes);
        let mut numbers = lent.rows.iter().chain(&lent.pins);
        assert!(numbers.all(|&number| number == 0));
        assert!(lent.classes.iter().all(|&number| number == 0));
        assert!(lent
            .marks
            .iter()
            .chain(&lent.pin_marks)
            .all(|&word| word == 0));
        assert!(lent.book.iter().all(|&number| number == 0));
        assert_eq!(lent.book.len(), length);
    }
}

#[test]
fn a_reply_writes_the_findings_at_the_front() {
    let condemned = line("C 1 101 31 6 0 0 0");
    for length in [MOST_NUMBERS, MOST_NUMBERS + 2] {
        let mut lent = in_native();
        let mut found = vec![9; length];
        assert_eq!(reply(|| lent.tested_step(&condemned), &mut found), 2);
        assert_eq!(found[..8], [2, 1, 0, 101, 2, 10, 1, 6]);
        assert_eq!(found[8..], vec![9; length - 8]);
        let refused = line("X 1 0");
        let mut found = vec![9; length];
        assert_eq!(reply(|| lent.tested_step(&refused), &mut found), -4);
        assert_eq!(found, vec![9; length]);
    }
}

#[test]
fn no_step_is_taken_without_room_for_the_most_findings() {
    for length in [0, 8, MOST_NUMBERS - 1] {
        let mut found = vec![9; length];
        assert_eq!(reply(|| unreachable!(), &mut found), SHORT_FOUND);
        assert_eq!(found, vec![9; length]);
    }
}

#[test]
fn words_of_marks_have_64_rows() {
    let mut lent = Slices::new(room(2 * WORD, 0));
    lent.marks = vec![u64::MAX, 0];
    lent.accepts("N 1 100 5");
    assert_eq!(
        lent.rows[WORD * REFERENCE_NUMBERS..][..REFERENCE_NUMBERS],
        [1, 5, 1, 1, 0]
    );
    assert_eq!(lent.marks, [u64::MAX, 1]);
}
