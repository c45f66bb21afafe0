//! Method and field identities: what M states, which functions want what, and rules 5 and 6.

use crate::common::{findings, judged_with, line, refusal, refusal_with, room, strs, Lent};
use plain::facts::{known, PlaceKind, FIRST_FUNCTION, LAST_FUNCTION};
use plain::judge::Judge;
use plain::lent::lookup::Identities;
use plain::lent::slices::Slices;
use plain::limits::MOST_CLASSES;
use plain::room::{Room, LENT};

const NONE: [&str; 0] = [];

/// A method, a static method, a field, a static field.
const FOUR: [(u32, u32); 4] = [(1, 0), (1, 1), (2, 0), (2, 1)];

/// Room for so many identities.
fn places(identities: usize) -> Room {
    Room { identities, ..LENT }
}

/// A call with local 5 in the places for handles and this in that for an identity, and the number of that place.
fn call(function: u32, identity: u64) -> (String, usize) {
    let kinds = known(function).places;
    let values = kinds.map(|kind| match kind {
        PlaceKind::Unused => 0,
        PlaceKind::Identity(_) => identity,
        _ => 5,
    });
    let is_identity = |kind: &PlaceKind| matches!(kind, PlaceKind::Identity(_));
    let place = kinds.iter().position(is_identity).unwrap() + 1;
    let [a, b, c] = values;
    (format!("C 1 100 {function} {a} {b} {c} 0"), place)
}

/// The rule that an identity breaks in a call after these lines, or 0; nothing else is broken.
#[track_caller]
fn rule(before: &[&str], function: u32, identity: u64) -> u8 {
    let (call, place) = call(function, identity);
    let found = findings(&[&["N 1 100 5"], before, &[&call]].concat());
    let number = before.len() + 2;
    match &found[..] {
        [] => 0,
        [found] => {
            let rule = found.split(' ').nth(1).unwrap().parse().unwrap();
            assert_eq!(*found, format!("{number} {rule} {place} {identity}"));
            rule
        }
        _ => panic!("{found:?}"),
    }
}

fn with_identity() -> impl Iterator<Item = u32> {
    let functions = FIRST_FUNCTION..=LAST_FUNCTION;
    functions.filter(|&function| known(function).letters().0.contains('i'))
}

#[test]
fn an_identity_never_stated_is_rule_5_in_each_function_that_takes_one() {
    for function in with_identity() {
        assert_eq!(rule(&[], function, 8), 5, "{function}");
        assert_eq!(rule(&["M 12 1 2 0 0", "M 4 2 2 1 0"], function, 8), 5);
    }
}

#[test]
fn each_function_takes_the_sort_and_flag_it_wants_and_no_other() {
    for function in with_identity() {
        for (sort, is_static) in FOUR {
            let statement = format!("M 8 {sort} 1 {is_static} 0");
            let is_right = match function {
                28..=30 | 34..=93 => (sort, is_static) == (1, 0),
                114..=143 => (sort, is_static) == (1, 1),
                95..=112 => (sort, is_static) == (2, 0),
                145..=162 => (sort, is_static) == (2, 1),
                9 => sort == 1,
                12 => sort == 2,
                _ => panic!("{function} takes no identity"),
            };
            let expected = if is_right { 0 } else { 5 };
            assert_eq!(rule(&[&statement], function, 8), expected, "{function}");
        }
    }
}

#[test]
fn a_final_field_is_rule_6_where_it_is_written_and_5_goes_before_6() {
    for function in with_identity() {
        let writes = matches!(function, 104..=112 | 154..=162);
        for (sort, is_static) in FOUR {
            let stated = |is_final| format!("M 8 {sort} 1 {is_static} {is_final}");
            let without = rule(&[&stated(0)], function, 8);
            let expected = if writes && without == 0 { 6 } else { without };
            assert_eq!(rule(&[&stated(1)], function, 8), expected, "{function}");
        }
    }
}

#[test]
fn rules_4_and_7_at_the_place_hide_5_and_6() {
    for function in with_identity() {
        assert_eq!(rule(&[], function, 0), 7, "{function}");
        for value in [5, 6, 7, 9] {
            assert_eq!(rule(&[], function, value), 4, "{function}");
        }
    }
}

#[test]
fn the_other_places_and_the_whole_line_are_judged_beside_5_and_6() {
    for (statement, rule) in [("M 4 2 1 0 0", 5), ("M 8 2 1 0 1", 6)] {
        let lines = [
            "N 1 100 5",
            statement,
            "C 1 100 222 5 0 0 0",
            "R 1 222 40 1",
            "C 1 101 104 9 8 13 0",
        ];
        let of_place = format!("5 {rule} 2 8");
        let expected = ["5 1 0 101", "5 2 0 0", "5 3 0 0", &of_place];
        let dead = ["5 11 1 9", "5 11 3 13"];
        assert_eq!(findings(&lines), [&expected[..], &dead].concat());
    }
    let lines = ["N 1 100 5", "O 1 5 3", "C 1 100 28 5 8 0 0"];
    assert_eq!(findings(&lines), ["3 4 1 5", "3 5 2 8"]);
    let lines = ["N 1 100 5", "C 1 100 64 5 0 8 0"];
    assert_eq!(findings(&lines), ["2 5 3 8", "2 7 2 0"]);
}

#[test]
fn a_condemned_call_still_acts() {
    let lines = [
        "N 1 100 5",
        "C 1 100 34 5 8 0 0",
        "N 1 100 9",
        "X 1 0",
        "R 1 34 13 0",
        "C 1 100 24 13 5 0 0",
        "R 1 24 0 0",
        "Z",
    ];
    assert_eq!(findings(&lines), ["2 5 2 8"]);
}

#[test]
fn the_last_m_counts_from_its_line_on() {
    let lines = [
        "N 1 100 5",
        "M 8 2 1 0 0",
        "C 1 100 61 5 8 0 0",
        "R 1 61 0 0",
        "M 8 1 1 0 0",
        "C 1 100 61 5 8 0 0",
        "R 1 61 0 0",
        "C 1 100 100 5 8 0 0",
        "R 1 100 0 0",
        "M 8 2 1 0 1",
        "C 1 100 100 5 8 0 0",
        "R 1 100 0 0",
        "C 1 100 109 5 8 0 0",
        "R 1 109 0 0",
        "M 8 2 1 0 0",
        "C 1 100 109 5 8 0 0",
        "R 1 109 0 0",
        "M 8 2 1 1 0",
        "C 1 100 109 5 8 0 0",
    ];
    let expected = ["3 5 2 8", "8 5 2 8", "13 6 2 8", "19 5 2 8"];
    assert_eq!(findings(&lines), expected);
}

#[test]
fn an_m_inside_an_open_call_does_not_change_how_its_c_was_judged() {
    let lines = [
        "N 1 100 5",
        "C 1 100 61 5 8 0 0",
        "M 8 1 1 0 0",
        "R 1 61 0 0",
        "C 1 100 61 5 8 0 0",
        "M 8 2 1 0 0",
        "R 1 61 0 0",
    ];
    assert_eq!(findings(&lines), ["2 5 2 8"]);
}

#[test]
fn m_is_of_no_thread_and_identities_are_those_of_all() {
    let lines = [
        "M 8 1 1 0 0",
        "N 1 100 5",
        "A 2 200",
        "C 2 200 25 0 0 0 0",
        "M 12 2 1 1 0",
        "R 2 25 5 0",
        "C 2 200 61 5 8 0 0",
        "C 1 100 150 5 12 0 0",
        "R 2 61 0 0",
        "D 2",
        "R 1 150 0 0",
        "X 1 0",
        "N 1 100 9",
        "C 1 100 61 9 8 0 0",
    ];
    assert_eq!(findings(&lines), NONE);
}

#[test]
fn results_state_nothing_and_no_line_ends_an_identity() {
    for get in [7, 8, 33, 94, 113, 144] {
        let (open, close) = (format!("C 1 100 {get} 5 0 0 0"), format!("R 1 {get} 8 0"));
        let found = findings(&["N 1 100 5", &open, &close, "C 1 100 9 5 8 0 0"]);
        assert_eq!(found, ["4 5 2 8"], "{get}");
        // Nor do they restate.
        let stated = ["N 1 100 5", "M 8 1 1 0 0", &open, &close];
        let used = ["C 1 100 61 5 8 0 0"];
        assert_eq!(findings(&[&stated[..], &used].concat()), NONE, "{get}");
    }
}

#[test]
fn m_is_in_step_anywhere_before_z() {
    for opening in [
        &[][..],
        &["N 1 100"],
        &["A 1 100"],
        &["N 1 100", "C 1 100 4 0 0 0 0"],
        &["N 1 100", "X 1 0"],
        &["N 1 100", "C 1 100 222 0 0 0 0", "R 1 222 8 1"],
    ] {
        let (mut judge, _) = judged_with(LENT, opening);
        assert!(judge.step(&line("M 8 1 4 1 1")).unwrap().is_empty());
    }
    assert_eq!(refusal(&["Z", "M 8 1 4 1 1"]), 4);
    assert_eq!(refusal(&["Z", "M 8 1 99 1 1"]), 4);
    assert_eq!(refusal(&["Z", "M 8 3 99 1 1"]), 3);
    assert_eq!(refusal(&["Z", "M 8 1 4 1"]), 2);
}

#[test]
fn m_of_a_class_neither_declared_nor_reserved_is_9() {
    for class in [5, 6, 7, 4_094, MOST_CLASSES] {
        let statement = format!("M 8 1 {class} 0 0");
        assert_eq!(refusal(&["K 8 1", &statement]), 9, "{class}");
        let declaration = format!("K {class} 1");
        assert_eq!(rule(&[&declaration, &statement], 61, 8), 0);
    }
    for class in 1..=4 {
        assert_eq!(rule(&[&format!("M 8 1 {class} 0 0")], 61, 8), 0);
    }
    // A refused M leaves what was stated.
    let (mut judge, _) = judged_with(LENT, &["N 1 100 5", "M 8 1 1 0 0"]);
    assert_eq!(judge.step(&line("M 8 2 9 0 0")), Err(9));
    assert!(judge.step(&line("C 1 100 61 5 8 0 0")).unwrap().is_empty());
}

#[test]
fn no_rule_looks_at_the_class_or_at_a_final_method() {
    let classes = ["N 1 100 5", "K 9 3", "O 1 5 2"];
    for function in with_identity() {
        let wanted = match function {
            9 | 28..=30 | 34..=93 => "1 0",
            114..=143 => "1 1",
            12 | 95..=112 => "2 0",
            _ => "2 1",
        };
        let (sort, is_static) = wanted.split_once(' ').unwrap();
        for class in [1, 2, 3, 4, 9] {
            let is_final = u8::from(sort == "1");
            let statement = format!("M 8 {sort} {class} {is_static} {is_final}");
            let (call, _) = call(function, 8);
            let found = findings(&[&classes[..], &[&statement, &call]].concat());
            assert_eq!(found, NONE, "{function}");
        }
    }
}

#[test]
fn a_new_identity_is_7_where_the_table_is_full_and_a_known_one_never() {
    for identities in 0..6 {
        let of_index = |stated| move |index| format!("M {} {stated}", 4 + 20 * index);
        let mut lines: Vec<String> = (0..identities).map(of_index("1 1 0 0")).collect();
        let new = [&strs(&lines)[..], &["M 8 1 1 0 0"]].concat();
        assert_eq!(refusal_with(places(identities), &new), 7);
        judged_with(places(identities + 1), &new);
        lines.extend((0..identities).map(of_index("2 2 1 1")));
        judged_with(places(identities), &strs(&lines));
    }
}

#[test]
fn the_refusals_of_m_come_in_their_order() {
    let full = |lines: &[&str]| refusal_with(places(1), &[&["M 4 1 1 0 0"], lines].concat());
    assert_eq!(full(&["M 8 1 9 0 0"]), 9);
    assert_eq!(full(&["M 8 1 1 0 0"]), 7);
    assert_eq!(full(&["M 4 1 9 0 0"]), 9);
    assert_eq!(full(&["M 8 3 9 0 0"]), 3);
    assert_eq!(full(&["Z", "M 8 1 9 0 0"]), 4);
    assert_eq!(full(&["Z", "M 8 1 1 0 0"]), 4);
}

#[test]
fn rows_and_identities_fill_apart() {
    let room = Room {
        references: 1,
        pins: 0,
        identities: 1,
    };
    let lines = ["N 1 100 5", "M 4 1 1 0 0"];
    let (mut judge, _) = judged_with(room, &lines);
    assert_eq!(judge.step(&line("M 8 1 1 0 0")), Err(7));
    assert!(judge.step(&line("C 1 100 61 5 4 0 0")).unwrap().is_empty());
    assert!(judge.step(&line("C 1 100 4 0 0 0 0")).is_err());
    judged_with(places(0), &["N 1 100 5 9 13", "K 5 1", "O 1 5 5"]);
}

#[test]
fn an_identity_is_not_its_twin() {
    let statement = ["M 4294967304 1 1 0 0"];
    assert_eq!(rule(&statement, 61, 8), 5);
    assert_eq!(rule(&statement, 61, 4_294_967_304), 0);
    let both = ["M 8 2 1 0 0", "M 4294967304 1 1 0 0"];
    assert_eq!(rule(&both, 61, 8), 5);
    assert_eq!(rule(&both, 100, 8), 0);
    assert_eq!(rule(&both, 61, 4_294_967_304), 0);
    let last = ["M 18446744073709551612 1 1 0 0"];
    assert_eq!(rule(&last, 61, u64::MAX - 3), 0);
}

#[test]
fn m_writes_its_place_and_the_line_and_nothing_else() {
    let mut lent = Slices::after(room(2, 2), &["N 1 100 5"]);
    let before = lent.clone();
    lent.accepts("M 8 2 3 0 1");
    lent.accepts("M 18446744073709551612 1 1 1 0");
    let mut after = before;
    *after.at(0, 0) = 3;
    let own = 4_095 + 4 * 2;
    after.classes[own..own + 4].copy_from_slice(&[8, 2, 0, 1]);
    let own = 4_095 + 4 * 1_023;
    after.classes[own..].copy_from_slice(&[u64::MAX - 3, 1, 1, 0]);
    assert_eq!(lent, after);
    lent.accepts("M 8 1 1 1 0");
    let own = 4_095 + 4 * 2;
    assert_eq!(lent.classes[own..own + 4], [8, 1, 1, 0]);
    lent.start();
    assert!(lent.classes.iter().all(|&number| number == 0));
    lent.accepts("N 1 100 5");
    assert_eq!(lent.accepts("C 1 100 61 5 8 0 0"), ["2 5 2 8"]);
}

#[test]
fn what_is_stated_is_found_however_full_the_table_is() {
    const IDENTITIES: u64 = 37;
    let mut judge = Judge::new(places(IDENTITIES as usize));
    let identity = |index: u64| 4 * (index * index * 7_919 + 1);
    for index in 0..IDENTITIES {
        let sort = 1 + index % 2;
        let statement = format!("M {} {sort} 1 0 0", identity(index));
        judge.step(&line(&statement)).unwrap();
        for other in 0..IDENTITIES {
            let stated = judge.tables().identities.stated(identity(other));
            let sort = stated.map(|stated| stated.sort);
            let expected = (other <= index).then_some(1 + other % 2);
            assert_eq!(sort, expected);
        }
    }
}
