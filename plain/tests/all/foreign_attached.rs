//! Attached items in foreign tables: which items they are, and what A and D make of whatever stands there.

use crate::common::{room, Lent};
use plain::lent::book::*;
use plain::lent::slices::Slices;
use plain::limits::{PIN_NUMBERS, REFERENCE_NUMBERS};

const HIGH: u64 = 1 << 32;

/// Tables in which thread 1, of env 100, is attached.
fn attached() -> Slices {
    Slices::after(room(8, 8), &["A 1 100"])
}

#[test]
fn a_marked_item_is_attached_where_all_its_function_is_1() {
    let mut lent = attached();
    lent.clone().accepts("D 1");
    assert_eq!(lent.refuses("X 1 0"), 4);
    for function in [0, 2, 3, 4, 6, 232, HIGH, HIGH + 1, 1 << 63, u64::MAX] {
        *lent.at(1, FUNCTIONS) = function;
        assert_eq!(lent.refuses("D 1"), 4, "{function}");
        assert_eq!(lent.refuses("A 1 100"), 4, "{function}");
        assert_eq!(lent.refuses("N 1 100"), 4, "{function}");
        lent.clone().accepts("X 1 0");
        lent.clone().accepts("C 1 100 4 0 0 0 0");
    }
    *lent.at(1, FUNCTIONS) = 1;
    *lent.at(1, ASKED) = u64::MAX;
    lent.accepts("D 1");
}

#[test]
fn an_unmarked_item_is_a_call_whatever_its_function() {
    for function in [0, 1, HIGH + 1] {
        let mut lent = attached();
        *lent.at(1, NATIVES) = !1;
        *lent.at(1, FUNCTIONS) = function;
        assert_eq!(lent.refuses("D 1"), 4);
        assert_eq!(lent.refuses("X 1 0"), 4);
        assert_eq!(lent.refuses("A 1 100"), 4);
        assert_eq!(lent.refuses("C 1 100 4 0 0 0 0"), 4);
        lent.accepts("N 1 100");
    }
}

#[test]
fn d_pops_the_top_item_alone_at_each_depth() {
    for items in 1..=64 {
        for below in [0, 1, 6] {
            for marks in [0, u64::MAX] {
                let mut lent = attached();
                *lent.at(1, FRAMES) = 64;
                *lent.at(1, ITEMS) = items;
                let top = 1 << (items - 1);
                *lent.at(1, NATIVES) = marks | top;
                for index in 0..64 {
                    *lent.at(1, FUNCTIONS + index) = below;
                }
                *lent.at(1, FUNCTIONS + items as usize - 1) = 1;
                let before = lent.book.clone();
                lent.accepts("D 1");
                assert_eq!(*lent.at(1, ITEMS), items - 1);
                assert_eq!(*lent.at(1, FRAMES), 0);
                *lent.at(1, ITEMS) = items;
                *lent.at(1, FRAMES) = 64;
                *lent.at(0, LINES) -= 1;
                assert_eq!(lent.book, before);
            }
        }
    }
}

#[test]
fn items_left_by_d_without_a_frame_are_8() {
    let mut lent = attached();
    *lent.at(1, ITEMS) = 2;
    *lent.at(1, FRAMES) = 2;
    *lent.at(1, NATIVES) = 3;
    *lent.at(1, FUNCTIONS + 1) = 1;
    lent.accepts("D 1");
    assert_eq!(lent.refuses("Z"), 8);
}

#[test]
fn d_ends_the_rows_of_all_frames_of_its_thread() {
    let mut lent = attached();
    for (index, row) in [
        [1, 6, 3, 7],
        [1, 9, 1, 7],
        [1, 13, 64, 7],
        [1, 17, u64::MAX, 7],
        [1, 21, 0, 7],
        [2, 5, 1, 7],
        [0, 6, 0, 7],
        [HIGH + 1, 5, 1, 7],
    ]
    .into_iter()
    .enumerate()
    {
        lent.put_reference(index, row);
        *lent.class_in(index) = 3;
    }
    lent.put_pin(0, [1, 10, 8, 7]);
    lent.put_pin(1, [0, 0, 8, 7]);
    let pins = (lent.pins.clone(), lent.pin_marks.clone());
    let rows = lent.rows.clone();
    assert_eq!(lent.accepts("D 1"), ["2 3 0 0"]);
    assert_eq!(lent.marks, [0b1111_0000]);
    assert_eq!(
        lent.rows[..4 * REFERENCE_NUMBERS],
        [0; 4 * REFERENCE_NUMBERS]
    );
    assert_eq!(
        lent.rows[4 * REFERENCE_NUMBERS..],
        rows[4 * REFERENCE_NUMBERS..]
    );
    assert_eq!((lent.pins, lent.pin_marks), pins);
}

#[test]
fn d_leaves_unmarked_rows_and_rows_past_the_room() {
    let mut lent = attached();
    lent.rows = [1, 5, 1, 7, 3].repeat(9);
    lent.marks[0] = 0x8000_0000_0000_0f01;
    lent.accepts("D 1");
    assert_eq!(lent.marks[0], 0x8000_0000_0000_0e00);
    assert_eq!(lent.rows[..5], [0; 5]);
    assert_eq!(lent.rows[5..8 * 5], [1, 5, 1, 7, 3].repeat(7));
    assert_eq!(lent.rows[8 * 5..], [0; 5]);
}

#[test]
fn d_counts_monitors_to_a_million() {
    for monitors in [1, 2, 999_999, 1_000_000] {
        let mut lent = attached();
        *lent.at(1, MONITORS) = monitors;
        *lent.at(2, MONITORS) = 1_000_000;
        assert_eq!(lent.accepts("D 1"), [format!("2 9 0 {monitors}")]);
        assert_eq!(*lent.at(1, MONITORS), 0);
        assert_eq!(*lent.at(2, MONITORS), 1_000_000);
    }
    let mut lent = attached();
    *lent.at(1, MONITORS) = 1_000_001;
    assert_eq!(lent.refuses("D 1"), 8);
}

#[test]
fn d_leaves_pending_and_the_env() {
    for pending in [0, 1, 2, u64::MAX] {
        let mut lent = attached();
        *lent.at(1, PENDING) = pending;
        *lent.at(1, ENV) = HIGH + 100;
        lent.accepts("D 1");
        assert_eq!(*lent.at(1, PENDING), pending);
        assert_eq!(*lent.at(1, ENV), HIGH + 100);
        assert_eq!(lent.refuses("A 1 100"), 5);
        lent.accepts("A 1 4294967396");
        assert_eq!(*lent.at(1, PENDING), 0);
    }
}

#[test]
fn a_over_frames_without_items_is_one_frame_more() {
    for frames in [1, 2, 62, 63] {
        let mut lent = Slices::new(room(8, 8));
        *lent.at(1, FRAMES) = frames;
        *lent.at(1, PUSHED + frames as usize) = 1;
        lent.accepts("A 1 100");
        assert_eq!(*lent.at(1, FRAMES), frames + 1);
        assert_eq!(*lent.at(1, CAPACITIES + frames as usize), 16);
        assert_eq!(*lent.at(1, PUSHED + frames as usize), 0);
        assert_eq!(lent.accepts("C 1 100 20 0 0 0 0"), ["2 11 0 0"]);
        lent.accepts("R 1 20 5 0");
        lent.accepts("D 1");
        assert_eq!((*lent.at(1, FRAMES), lent.marks[0]), (0, 0));
    }
    let mut lent = Slices::new(room(8, 8));
    *lent.at(1, FRAMES) = 64;
    assert_eq!(lent.refuses("A 1 100"), 7);
    *lent.at(2, ENV) = 100;
    assert_eq!(lent.refuses("A 1 100"), 5);
    *lent.at(1, ITEMS) = 1;
    assert_eq!(lent.refuses("A 1 100"), 4);
}

#[test]
fn a_call_over_an_attached_item_64_is_7() {
    let mut lent = attached();
    *lent.at(1, ITEMS) = 64;
    *lent.at(1, NATIVES) = 1 << 63;
    *lent.at(1, FUNCTIONS + 63) = 1;
    assert_eq!(lent.refuses("C 1 100 4 0 0 0 0"), 7);
    assert_eq!(lent.refuses("A 1 100"), 4);
    assert_eq!(lent.refuses("N 1 100"), 4);
    lent.accepts("D 1");
}

#[test]
fn attached_items_are_counted_as_natives_for_8() {
    for natives in 1..=64 {
        for functions in [[1, 1], [1, 0], [0, 1]] {
            let mut lent = Slices::new(room(8, 8));
            *lent.at(16, ITEMS) = 64;
            *lent.at(16, NATIVES) = u64::MAX >> (64 - natives);
            for index in 0..64 {
                *lent.at(16, FUNCTIONS + index) = functions[index % 2];
            }
            *lent.at(16, FRAMES) = natives;
            lent.clone().accepts("Z");
            *lent.at(16, FRAMES) = natives - 1;
            assert_eq!(lent.refuses("Z"), 8);
        }
    }
}

#[test]
fn a_writes_a_mark_a_function_and_what_was_asked_over_any_numbers() {
    let mut lent = Slices::new(room(8, 8));
    for column in [NATIVES, FUNCTIONS, ASKED, CAPACITIES, PUSHED] {
        *lent.at(1, column) = !1;
    }
    lent.accepts("A 1 100");
    assert_eq!(*lent.at(1, NATIVES), u64::MAX);
    assert_eq!(*lent.at(1, FUNCTIONS), 1);
    assert_eq!(*lent.at(1, ASKED), 0);
    assert_eq!(*lent.at(1, CAPACITIES), 16);
    assert_eq!(*lent.at(1, PUSHED), 0);
    assert_eq!(lent.pins, vec![0; 8 * PIN_NUMBERS]);
}
