//! Lent class tables with foreign contents and lengths, and foreign classes in rows.

use crate::common::{line, room, Lent};
use plain::lent::slices::Slices;
use plain::limits::REFERENCE_NUMBERS;

/// Tables in which thread 1 has a local 5 with this class.
fn with_class(class: u64) -> Slices {
    let mut lent = Slices::after(room(8, 8), &["N 1 100 5"]);
    *lent.class_in(0) = class;
    lent
}

/// Whether 5 is condemned as a class, a string and a throwable.
fn condemned(lent: &Slices) -> [bool; 3] {
    [33, 164, 13].map(|function| {
        let call = format!("C 1 100 {function} 5 0 0 0");
        let found = lent.clone().accepts(&call);
        assert!(found.is_empty() || found == ["2 4 1 5"], "{found:?}");
        !found.is_empty()
    })
}

#[test]
fn a_short_class_table_is_8_before_all_else() {
    for length in [0, 1, 4_094] {
        let mut lent = with_class(0);
        lent.classes.truncate(length);
        for text in [
            "X 1 0",
            "Z",
            "N 17 01",
            "",
            "K 5 1",
            "O 1 5 2",
            "M 8 1 2 0 0",
        ] {
            assert_eq!(lent.refuses(text), 8, "{length} {text}");
        }
        assert_eq!(lent.tested_step(b"Z"), Err(8));
        *lent.at(0, 0) = 1_000_000;
        assert_eq!(lent.refuses("Z"), 8);
        lent.start();
        assert_eq!(lent.refuses("Z"), 8);
    }
}

#[test]
fn the_leak_list_looks_at_no_class() {
    let opening = ["N 1 100 5", "C 1 100 21 5 0 0 0", "R 1 21 6 0", "Z"];
    let mut lent = Slices::after(room(8, 8), &opening);
    lent.classes.clear();
    *lent.class_in(1) = 99;
    assert_eq!(lent.lists(4), (1, vec![10, 0, 6, 3]));
}

#[test]
fn numbers_past_class_4095_are_no_supers() {
    for past in [0, 2, 3, u64::MAX] {
        let mut lent = with_class(4_096);
        lent.classes[4_095..].fill(past);
        assert_eq!(condemned(&lent), [true; 3]);
        *lent.class_in(0) = 4_095;
        *lent.superclass(4_095) = 4_096;
        assert_eq!(condemned(&lent), [true; 3]);
        *lent.superclass(4_095) = 0;
        lent.accepts("K 4095 2");
        assert_eq!(condemned_at(&lent, 3), [false, true, true]);
        assert!(lent.classes[4_095..].iter().all(|&number| number == past));
    }
}

/// The same where the call is line number so and so.
fn condemned_at(lent: &Slices, number: u32) -> [bool; 3] {
    [33, 164, 13].map(|function| {
        let call = format!("C 1 100 {function} 5 0 0 0");
        let found = lent.clone().accepts(&call);
        let wanted = format!("{number} 4 1 5");
        assert!(found.is_empty() || found == [wanted], "{found:?}");
        !found.is_empty()
    })
}

#[test]
fn numbers_of_reserved_classes_are_not_looked_at() {
    for number in [0, 1, 2, 3, 4, 5, u64::MAX] {
        for class in 1..=4 {
            let mut lent = with_class(class);
            lent.classes[..4].fill(number);
            let wanted = [2, 3, 4].map(|fixed| fixed != class);
            assert_eq!(condemned(&lent), wanted);
            assert_eq!(lent.refuses(&format!("K {class} 1")), 9);
            lent.accepts(&format!("O 1 5 {class}"));
            lent.accepts(&format!("K 9 {class}"));
            assert_eq!(lent.classes[..4], [number; 4]);
        }
    }
}

#[test]
fn any_number_but_0_declares_a_class() {
    for number in [1, 5, 6, 4_096, 1 << 32, (1 << 32) + 1, u64::MAX] {
        let mut lent = with_class(0);
        *lent.superclass(5) = number;
        assert_eq!(lent.refuses("K 5 1"), 9);
        lent.accepts("K 6 5");
        lent.accepts("O 1 5 5");
        assert_eq!(*lent.class_in(0), 5);
        assert_eq!(lent.refuses("O 1 5 7"), 9);
    }
}

#[test]
fn a_circle_is_below_nothing() {
    let mut lent = with_class(5);
    *lent.superclass(5) = 5;
    assert_eq!(condemned(&lent), [true; 3]);
    *lent.superclass(5) = 6;
    *lent.superclass(6) = 7;
    *lent.superclass(7) = 6;
    assert_eq!(condemned(&lent), [true; 3]);
    for class in 5..4_095 {
        *lent.superclass(class) = class as u64 + 1;
    }
    *lent.superclass(4_095) = 5;
    assert_eq!(condemned(&lent), [true; 3]);
    *lent.superclass(4_095) = 3;
    assert_eq!(condemned(&lent), [true, false, true]);
}

#[test]
fn a_chain_that_leaves_the_table_is_below_nothing() {
    for end in [
        0,
        4_096,
        4_097,
        65_536 + 2,
        1 << 32,
        (1 << 32) + 2,
        u64::MAX,
    ] {
        let mut lent = with_class(5);
        *lent.superclass(5) = 6;
        *lent.superclass(6) = end;
        assert_eq!(condemned(&lent), [true; 3], "{end}");
        *lent.class_in(0) = end;
        assert_eq!(condemned(&lent), [end != 0; 3], "{end}");
    }
    let lent = with_class(9);
    assert_eq!(condemned(&lent), [true; 3], "a class that is not declared");
}

#[test]
fn a_class_in_a_row_is_not_cut_to_32_bits() {
    const HIGH: u64 = 1 << 32;
    let mut lent = with_class(5);
    *lent.superclass(5) = 3;
    assert_eq!(condemned(&lent), [true, false, true]);
    for other in [HIGH, HIGH + 2, HIGH + 3, HIGH + 5, 7 * HIGH + 3, u64::MAX] {
        *lent.class_in(0) = other;
        assert_eq!(condemned(&lent), [true; 3], "{other}");
    }
    *lent.class_in(0) = 0;
    assert_eq!(condemned(&lent), [false; 3]);
}

#[test]
fn the_lowest_of_equal_rows_has_the_class() {
    let mut lent = Slices::after(room(8, 8), &["N 1 100"]);
    lent.put_reference(2, [1, 5, 1, 7]);
    lent.put_reference(4, [1, 5, 1, 7]);
    *lent.class_in(4) = 4;
    assert_eq!(condemned(&lent), [false; 3]);
    *lent.class_in(2) = 3;
    assert_eq!(condemned(&lent), [true, false, true]);
    // A free row below, one of another thread and one of no thread are not the handle's.
    for (index, thread) in [(0, 2), (1, 0)] {
        lent.put_reference(index, [thread, 5, 1, 7]);
        *lent.class_in(index) = 2;
    }
    assert_eq!(condemned(&lent), [true, false, true]);
    lent.accepts("O 1 5 2");
    let classes = lent.rows.chunks(REFERENCE_NUMBERS).map(|row| row[4]);
    assert_eq!(classes.collect::<Vec<_>>(), [2, 2, 2, 0, 4, 0, 0, 0]);
    lent.accepts("C 1 100 23 5 0 0 0");
    lent.accepts("R 1 23 0 0");
    assert_eq!(condemned_at(&lent, 5), [true, true, false]);
}

#[test]
fn o_on_null_or_an_identity_is_10_also_where_a_row_has_it() {
    let mut lent = Slices::after(room(8, 8), &["N 1 100"]);
    for (index, thread) in [(0, 0), (1, 1)] {
        lent.put_reference(index, [thread, 8, 0, 7]);
        lent.put_reference(index + 2, [thread, 0, 0, 7]);
    }
    assert_eq!(lent.refuses("O 1 8 2"), 10);
    assert_eq!(lent.refuses("O 1 0 2"), 10);
    assert_eq!(lent.accepts("C 1 100 33 8 0 0 0"), ["2 4 1 8"]);
}

#[test]
fn o_looks_for_globals_in_rows_of_no_thread_and_for_locals_in_its_own() {
    let mut lent = Slices::after(room(8, 8), &["N 1 100"]);
    lent.put_reference(0, [1, 6, 1, 7]);
    lent.put_reference(1, [0, 5, 0, 7]);
    lent.put_reference(2, [17, 9, 1, 7]);
    for text in ["O 1 6 2", "O 1 5 2", "O 1 9 2"] {
        assert_eq!(lent.refuses(text), 10, "{text}");
    }
    lent.marks[0] = 0;
    lent.put_reference(3, [0, 6, 0, 7]);
    lent.put_reference(4, [1, 5, 9, 7]);
    lent.accepts("O 1 6 2");
    lent.accepts("O 1 5 3");
    assert_eq!((*lent.class_in(3), *lent.class_in(4)), (2, 3));
}

#[test]
fn the_row_of_31_s_result_says_class_whatever_stood_there() {
    let mut lent = Slices::after(room(2, 0), &["N 1 100", "C 1 100 31 0 0 0 0"]);
    lent.rows.fill(9);
    lent.accepts("R 1 31 5 0");
    assert_eq!(lent.rows[..5], [1, 5, 1, 3, 2]);
    let mut lent = Slices::after(room(2, 0), &["N 1 100", "C 1 100 6 0 0 0 0"]);
    lent.rows.fill(9);
    lent.accepts("R 1 6 5 0");
    assert_eq!(lent.rows[..5], [1, 5, 1, 3, 0]);
}

#[test]
fn a_class_in_a_row_matters_only_where_a_place_has_one() {
    for class in [1, 5, 4_096, (1 << 32) + 2, u64::MAX] {
        let lent = with_class(class);
        for text in ["C 1 100 31 5 0 0 0", "C 1 100 24 5 5 0 0", "X 1 5", "Z"] {
            assert!(lent.clone().accepts(text).is_empty(), "{text}");
        }
        assert_eq!(lent.clone().step(&line("O 1 5 5")), Err(9));
    }
}
