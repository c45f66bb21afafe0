//! Lent places of identities with foreign contents and lengths.

use crate::common::{line, room, Lent};
use plain::lent::slices::Slices;
use plain::limits::{IDENTITY_NUMBERS, MOST_CLASSES};

/// Tables in which thread 1 has a local 5, with these places.
fn with_places(places: &[[u64; IDENTITY_NUMBERS]]) -> Slices {
    let mut lent = Slices::after(room(8, 8), &["N 1 100 5"]);
    lent.classes.truncate(MOST_CLASSES);
    lent.classes.extend(places.as_flattened());
    lent
}

/// The rule that an identity breaks as the method of 61, and as the field that 109 writes.
fn broken(lent: &Slices, identity: u64) -> [u8; 2] {
    [61, 109].map(|function| {
        let call = format!("C 1 100 {function} 5 {identity} 0 0");
        let found = lent.clone().step(&line(&call)).unwrap();
        assert!(found.len() <= 1, "{found:?}");
        found.first().map_or(0, |found| found.rule)
    })
}

const METHOD: [u8; 2] = [0, 5];
const FIELD: [u8; 2] = [5, 0];
const FINAL: [u8; 2] = [5, 6];
const NEITHER: [u8; 2] = [5, 5];

const FREE: [u64; 4] = [0; 4];

#[test]
fn with_room_for_none_nothing_is_stated_and_each_m_is_7() {
    for past in [&[][..], &[8], &[8, 1], &[8, 1, 0]] {
        let mut lent = with_places(&[]);
        lent.classes.extend(past);
        assert_eq!(broken(&lent, 8), NEITHER);
        assert_eq!(lent.refuses("M 8 1 1 0 0"), 7);
        assert_eq!(lent.refuses("M 8 1 9 0 0"), 9);
        assert_eq!(lent.refuses("M 8 1 0 0 0"), 3);
    }
}

#[test]
fn numbers_past_the_last_place_are_neither_read_nor_written() {
    for past in [&[8][..], &[8, 1], &[8, 1, 0]] {
        let mut lent = with_places(&[FREE]);
        lent.classes.extend(past);
        assert_eq!(broken(&lent, 8), NEITHER);
        lent.accepts("M 8 2 1 0 0");
        assert_eq!(lent.classes[MOST_CLASSES..], [&[8, 2, 0, 0], past].concat());
        assert_eq!(lent.refuses("M 12 1 1 0 0"), 7);
        lent.start();
        assert!(lent.classes.iter().all(|&number| number == 0));
    }
}

#[test]
fn an_identity_is_looked_for_from_its_own_place_to_the_last_and_then_from_the_first() {
    // The own place of 8 is 2, that of 12 is 3, that of 16 and of 0 is 0.
    for at in 0..4 {
        let mut places = [[4_000, 2, 0, 0]; 4];
        places[at] = [8, 1, 0, 0];
        let lent = with_places(&places);
        assert_eq!(broken(&lent, 8), METHOD, "{at}");
    }
    let mut lent = with_places(&[[4_000, 2, 0, 0], FREE, FREE, [12, 2, 0, 0]]);
    lent.accepts("M 28 1 1 0 0");
    assert_eq!(lent.classes[MOST_CLASSES + 4..][..4], [28, 1, 0, 0]);
    lent.accepts("M 8 1 1 1 1");
    assert_eq!(lent.classes[MOST_CLASSES + 8..][..4], [8, 1, 1, 1]);
    assert_eq!(lent.refuses("M 4 1 1 0 0"), 7);
    lent.accepts("M 4000 1 1 0 0");
}

#[test]
fn the_search_stops_at_a_free_place() {
    let mut lent = with_places(&[FREE, FREE, FREE, [8, 1, 0, 0]]);
    assert_eq!(broken(&lent, 8), NEITHER);
    assert_eq!(broken(&lent, 12), NEITHER);
    lent.accepts("M 8 2 1 0 0");
    assert_eq!(
        lent.classes[MOST_CLASSES..],
        [FREE, FREE, [8, 2, 0, 0], [8, 1, 0, 0]].concat()
    );
    // A free place may hold other numbers, which say nothing and are written over.
    let mut lent = with_places(&[[0, 1, 0, 0], [8, 1, 0, 0]]);
    assert_eq!(broken(&lent, 8), NEITHER);
    lent.accepts("M 16 2 1 1 1");
    assert_eq!(lent.classes[MOST_CLASSES..][..4], [16, 2, 1, 1]);
    assert_eq!(broken(&lent, 8), METHOD);
}

#[test]
fn the_first_of_equal_identities_from_its_own_place_on_counts() {
    let mut lent = with_places(&[[4, 2, 0, 0], [4, 1, 0, 0], [4, 2, 0, 1]]);
    assert_eq!(broken(&lent, 4), METHOD);
    lent.accepts("M 4 2 1 0 0");
    assert_eq!(broken(&lent, 4), FIELD);
    assert_eq!(
        lent.classes[MOST_CLASSES..],
        [[4, 2, 0, 0], [4, 2, 0, 0], [4, 2, 0, 1]].concat()
    );
}

#[test]
fn sort_and_flags_are_exact_numbers() {
    const HIGH: u64 = 1 << 32;
    for (stated, expected) in [
        ([1, 0, 0], METHOD),
        ([1, 0, 7], METHOD),
        ([2, 0, 0], FIELD),
        ([2, 0, 1], FINAL),
        ([2, 0, 2], FIELD),
        ([2, 0, HIGH + 1], FIELD),
        ([2, 0, u64::MAX], FIELD),
        ([0, 0, 0], NEITHER),
        ([3, 0, 0], NEITHER),
        ([HIGH + 1, 0, 0], NEITHER),
        ([HIGH + 2, 0, 0], NEITHER),
        ([1, 2, 0], NEITHER),
        ([1, HIGH, 0], NEITHER),
        ([2, u64::MAX, 1], NEITHER),
    ] {
        let [sort, is_static, is_final] = stated;
        let lent = with_places(&[[8, sort, is_static, is_final]]);
        assert_eq!(broken(&lent, 8), expected, "{stated:?}");
    }
    for (is_static, condemned) in [(0, true), (1, false), (2, true), (HIGH + 1, true)] {
        for (sort, function) in [(1, 114), (2, 145)] {
            let lent = with_places(&[[8, sort, is_static, 0]]);
            let call = format!("C 1 100 {function} 5 8 0 0");
            assert_eq!(!lent.clone().accepts(&call).is_empty(), condemned);
        }
    }
    // 9 and 12 want a sort alone.
    for (sort, function) in [(1, 9), (2, 12)] {
        for is_static in [0, 1, 2, u64::MAX] {
            let mut lent = with_places(&[[8, sort, is_static, 1]]);
            assert!(lent
                .accepts(&format!("C 1 100 {function} 5 8 0 0"))
                .is_empty());
        }
    }
}

#[test]
fn what_is_no_identity_may_stand_at_a_place_and_is_passed() {
    let lent = with_places(&[[9, 1, 0, 0], [u64::MAX, 1, 0, 0], [8, 1, 0, 0]]);
    assert_eq!(broken(&lent, 8), METHOD);
    // A number of another remainder is never looked for.
    assert_eq!(broken(&lent, 9), [4, 4]);
    let twin = with_places(&[[(1 << 32) + 8, 1, 0, 0]]);
    assert_eq!(broken(&twin, 8), NEITHER);
}

#[test]
fn the_table_of_identities_has_no_other_cap() {
    let mut lent = with_places(&vec![FREE; 70_000]);
    lent.accepts("M 279996 1 1 0 0");
    assert_eq!(
        lent.classes[MOST_CLASSES + 4 * 69_999..],
        [279_996, 1, 0, 0]
    );
    assert_eq!(broken(&lent, 279_996), METHOD);
}
