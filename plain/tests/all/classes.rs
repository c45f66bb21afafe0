//! Classes: those declared, those stated of handles, the places that have one, and refusals 9 and 10.

use crate::common::{findings, judged, refusal, room, Lent};
use plain::facts::{known, FIRST_FUNCTION, LAST_FUNCTION};
use plain::judge::Judge;
use plain::lent::classes::Classes;
use plain::lent::references::CLASS;
use plain::lent::slices::Slices;
use plain::limits::REFERENCE_NUMBERS;
use plain::standing::Standing;

const NONE: [&str; 0] = [];

/// Whether a handle with these statements before is condemned in a place for a class (33), a string (164) and a throwable (13).
#[track_caller]
fn condemned(lines: &[&str], handle: u64) -> [bool; 3] {
    [33, 164, 13].map(|function| {
        let call = format!("C 1 100 {function} {handle} 0 0 0");
        let (_, found) = judged(&[lines, &[&call]].concat());
        let wanted = format!("{} 4 1 {handle}", lines.len() + 1);
        assert!(found.is_empty() || found == [wanted], "{call}: {found:?}");
        !found.is_empty()
    })
}

/// The same of a local 5 that is stated to be of this class, after these declarations.
#[track_caller]
fn stated(declarations: &[&str], class: u32) -> [bool; 3] {
    let statement = format!("O 1 5 {class}");
    condemned(&[declarations, &["N 1 100 5", &statement]].concat(), 5)
}

// ---- what is judged

#[test]
fn a_handle_without_a_class_is_not_judged() {
    assert_eq!(condemned(&["N 1 100 5"], 5), [false; 3]);
    assert_eq!(
        condemned(&["K 5 3", "N 1 100 5 9", "O 1 9 5"], 5),
        [false; 3]
    );
}

#[test]
fn a_reserved_class_is_right_where_it_is_fixed_alone_and_the_root_nowhere() {
    assert_eq!(stated(&[], 1), [true, true, true]);
    assert_eq!(stated(&[], 2), [false, true, true]);
    assert_eq!(stated(&[], 3), [true, false, true]);
    assert_eq!(stated(&[], 4), [true, true, false]);
}

#[test]
fn a_class_is_below_another_by_a_chain_of_supers() {
    let chain = ["K 9 4", "K 7 9", "K 4095 7"];
    for class in [9, 7, 4_095] {
        assert_eq!(stated(&chain, class), [true, true, false]);
    }
    let under_the_root = ["K 9 1", "K 7 9"];
    for class in [9, 7] {
        assert_eq!(stated(&under_the_root, class), [true; 3]);
    }
}

#[test]
fn the_longest_chain_has_all_classes() {
    let mut judge = Judge::new(room(8, 8));
    let mut step = |text: String| judge.step(&crate::common::line(&text));
    for class in 5..=4_095 {
        let superclass = if class == 5 { 2 } else { class - 1 };
        assert!(step(format!("K {class} {superclass}")).is_ok());
    }
    for text in ["N 1 100 5", "O 1 5 4095", "C 1 100 33 5 0 0 0"] {
        assert!(step(text.to_string()).unwrap().is_empty());
    }
    step("R 1 33 0 0".to_string()).unwrap();
    let found = step("C 1 100 13 5 0 0 0".to_string()).unwrap();
    assert_eq!(crate::common::told(&found), ["4096 4 1 5"]);
}

#[test]
fn each_place_is_judged_by_its_own_class() {
    let opening = ["N 1 100 5 9 13", "O 1 5 2", "O 1 9 3", "O 1 13 4"];
    for function in FIRST_FUNCTION..=LAST_FUNCTION {
        let facts = known(function);
        let letters = facts.letters().0;
        for (handle, class) in [(5, 2), (9, 3), (13, 4)] {
            let is_handle = |letter| "rolgw".contains(letter);
            let places = letters
                .chars()
                .map(|letter| if is_handle(letter) { handle } else { 0 });
            let places: Vec<String> = places.map(|value| value.to_string()).collect();
            let call = format!("C 1 100 {function} {} 0", places.join(" "));
            let found = findings(&[&opening[..], &[&call]].concat());
            for place in 1..=3 {
                let fixed = facts.classes[place - 1];
                let by_kind = "gw".contains(letters.chars().nth(place - 1).unwrap());
                let wanted = by_kind || fixed.is_some_and(|fixed| fixed != class);
                let finding = format!("5 4 {place} {handle}");
                assert_eq!(found.contains(&finding), wanted, "{call}");
            }
        }
    }
}

#[test]
fn both_places_of_11_and_the_second_of_32_and_64() {
    let opening = ["N 1 100 5 9", "O 1 5 2", "O 1 9 3", "M 8 1 1 0 0"];
    let found = |call| findings(&[&opening[..], &[call]].concat());
    assert_eq!(found("C 1 100 11 5 5 0 0"), NONE);
    assert_eq!(found("C 1 100 11 9 5 0 0"), ["5 4 1 9"]);
    assert_eq!(found("C 1 100 11 5 9 0 0"), ["5 4 2 9"]);
    assert_eq!(found("C 1 100 11 9 9 0 0"), ["5 4 1 9", "5 4 2 9"]);
    assert_eq!(found("C 1 100 32 9 5 0 0"), NONE);
    assert_eq!(found("C 1 100 32 5 9 0 0"), ["5 4 2 9"]);
    assert_eq!(found("C 1 100 64 9 5 8 0"), NONE);
    assert_eq!(found("C 1 100 64 5 9 8 0"), ["5 4 2 9"]);
    assert_eq!(found("C 1 100 64 5 9 9 0"), ["5 4 2 9", "5 4 3 9"]);
}

#[test]
fn the_result_of_x_has_no_class() {
    for class in 1..=4 {
        let statement = format!("O 1 5 {class}");
        assert_eq!(findings(&["N 1 100 5", &statement, "X 1 5"]), NONE);
    }
}

#[test]
fn the_class_is_judged_last_and_gives_no_second_finding() {
    // An ended local, another thread's local, an ended global, null and an identity.
    let lines = [
        "N 1 100 5 9",
        "O 1 5 4",
        "C 1 100 21 9 0 0 0",
        "R 1 21 6 0",
        "O 1 6 4",
        "C 1 100 23 5 0 0 0",
        "R 1 23 0 0",
        "C 1 100 22 6 0 0 0",
        "R 1 22 0 0",
        "N 2 200 13",
        "O 2 13 4",
    ];
    let found = |value: u64| {
        let call = format!("C 1 100 164 {value} 0 0 0");
        findings(&[&lines[..], &[&call]].concat())
    };
    assert_eq!(found(5), ["12 11 1 5"]);
    assert_eq!(found(13), ["12 11 1 13"]);
    assert_eq!(found(6), ["12 10 1 6"]);
    assert_eq!(found(0), ["12 7 1 0"]);
    assert_eq!(found(8), ["12 4 1 8"]);
}

#[test]
fn a_condemned_call_acts_as_others_do() {
    let lines = [
        "N 1 100 5 9",
        "C 1 100 169 9 0 0 0",
        "R 1 169 8000 0",
        "O 1 5 4",
        "C 1 100 170 5 8000 0 0",
        "R 1 170 0 0",
        "C 1 100 170 9 8000 0 0",
    ];
    assert_eq!(findings(&lines), ["5 4 1 5", "7 8 2 8000"]);
}

// ---- how a handle comes to its class

#[test]
fn the_result_of_31_is_a_class() {
    let lines = ["N 1 100 5", "C 1 100 31 5 0 0 0", "R 1 31 9 0"];
    assert_eq!(condemned(&lines, 9), [false, true, true]);
    assert_eq!(condemned(&lines, 5), [false; 3]);
    let null = ["N 1 100 5", "C 1 100 31 5 0 0 0", "R 1 31 0 0"];
    assert_eq!(condemned(&null, 5), [false; 3]);
    let lent = Slices::after(room(8, 8), &lines);
    assert_eq!(lent.rows[5..10], [1, 9, 1, 3, 2]);
}

#[test]
fn the_last_statement_counts_also_over_31() {
    let lines = ["N 1 100 5", "C 1 100 31 5 0 0 0", "R 1 31 9 0", "O 1 9 3"];
    assert_eq!(condemned(&lines, 9), [true, false, true]);
    let lines = ["N 1 100 5", "O 1 5 3", "O 1 5 4"];
    assert_eq!(condemned(&lines, 5), [true, true, false]);
    let lines = ["N 1 100 5", "O 1 5 3", "O 1 5 1", "O 1 5 3"];
    assert_eq!(condemned(&lines, 5), [true, false, true]);
}

#[test]
fn other_results_have_none() {
    for function in FIRST_FUNCTION..=LAST_FUNCTION {
        let (places, 'L') = known(function).letters() else {
            continue;
        };
        let value = |letter| match letter {
            'r' | 'o' => "5",
            'i' => "8",
            _ => "0",
        };
        let places: Vec<&str> = places.chars().map(value).collect();
        let call = format!("C 1 100 {function} {} 0", places.join(" "));
        let answer = format!("R 1 {function} 77 0");
        let lent = Slices::after(room(8, 8), &["N 1 100 5", &call, &answer]);
        let made = lent.rows.as_chunks::<REFERENCE_NUMBERS>().0;
        let made = made.iter().find(|row| row[1] == 77).unwrap();
        assert_eq!(made[CLASS], if function == 31 { 2 } else { 0 }, "{call}");
    }
}

#[test]
fn copies_inherit_no_class() {
    for (copy, handle) in [(25, 9), (21, 6), (226, 7)] {
        let call = format!("C 1 100 {copy} 5 0 0 0");
        let answer = format!("R 1 {copy} {handle} 0");
        let lines = ["N 1 100 5", "O 1 5 3", &call, &answer];
        assert_eq!(condemned(&lines, handle), [false; 3]);
        assert_eq!(condemned(&lines, 5), [true, false, true]);
    }
    let popped = [
        "N 1 100",
        "C 1 100 19 0 0 0 1",
        "R 1 19 0 0",
        "C 1 100 6 0 0 0 0",
        "R 1 6 5 0",
        "O 1 5 3",
        "C 1 100 20 5 0 0 0",
        "R 1 20 5 0",
    ];
    assert_eq!(condemned(&popped, 5), [false; 3]);
}

#[test]
fn a_statement_ends_with_the_handle() {
    let deleted = [
        "N 1 100 5",
        "O 1 5 3",
        "C 1 100 23 5 0 0 0",
        "R 1 23 0 0",
        "C 1 100 6 0 0 0 0",
        "R 1 6 5 0",
    ];
    assert_eq!(condemned(&deleted, 5), [false; 3]);
    let left = ["N 1 100 5", "O 1 5 3", "X 1 0", "N 1 100 5"];
    assert_eq!(condemned(&left, 5), [false; 3]);
    let global = [
        "N 1 100 5",
        "C 1 100 21 5 0 0 0",
        "R 1 21 6 0",
        "O 1 6 3",
        "C 1 100 22 6 0 0 0",
        "R 1 22 0 0",
        "C 1 100 21 5 0 0 0",
        "R 1 21 6 0",
    ];
    assert_eq!(condemned(&global, 6), [false; 3]);
    let mut lent = Slices::after(room(2, 0), &["N 1 100 5", "O 1 5 3"]);
    assert_eq!(lent.rows[..5], [1, 5, 1, 1, 3]);
    lent.accepts("X 1 0");
    assert_eq!(lent.rows, [0; 10]);
}

#[test]
fn a_delete_that_ends_nothing_leaves_the_class() {
    let lines = ["N 1 100 5", "O 1 5 3", "C 1 100 22 5 0 0 0", "R 1 22 0 0"];
    let (_, found) = judged(&[&lines[..], &["C 1 100 13 5 0 0 0"]].concat());
    assert_eq!(found, ["3 4 1 5", "5 4 1 5"]);
}

#[test]
fn a_local_and_another_thread_s_local_of_that_number_have_a_class_each() {
    let lines = ["N 1 100 5", "N 2 200 5", "O 2 5 3"];
    assert_eq!(condemned(&lines, 5), [false; 3]);
    let lines = ["N 1 100 5", "N 2 200 5", "O 2 5 3", "O 1 5 4"];
    assert_eq!(condemned(&lines, 5), [true, true, false]);
}

#[test]
fn a_global_or_weak_is_stated_by_any_thread_for_all() {
    for (make, handle) in [(21, 6), (226, 7)] {
        let lines = [
            "N 2 200 5".to_string(),
            format!("C 2 200 {make} 5 0 0 0"),
            format!("R 2 {make} {handle} 0"),
            format!("O 9 {handle} 3"),
            "N 1 100".to_string(),
        ];
        let lines = lines.each_ref().map(String::as_str);
        assert_eq!(condemned(&lines, handle), [true, false, true]);
    }
}

#[test]
fn a_class_that_is_declared_later_does_not_change_what_is_below() {
    let lines = ["K 5 3", "N 1 100 5", "O 1 5 5", "K 6 5", "K 7 4"];
    assert_eq!(condemned(&lines, 5), [true, false, true]);
}

// ---- in step

#[test]
fn k_and_o_are_in_step_with_items_open_or_none() {
    assert_eq!(
        findings(&[
            "K 5 1",
            "N 1 100 5",
            "K 6 5",
            "O 1 5 6",
            "C 1 100 25 5 0 0 0",
            "K 7 6",
            "O 1 5 7",
            "N 1 100 9",
            "O 1 9 7",
            "X 1 0",
            "R 1 25 13 0",
            "O 1 13 7",
            "C 1 100 21 5 0 0 0",
            "R 1 21 6 0",
            "X 1 0",
            "O 1 6 7",
            "O 16 6 5",
            "Z",
        ]),
        ["18 10 0 1"]
    );
}

#[test]
fn o_leaves_a_thread_without_lines_as_it_was() {
    let opening = ["N 1 100 5", "C 1 100 21 5 0 0 0", "R 1 21 6 0"];
    let mut lent = Slices::after(room(8, 8), &opening);
    let book = lent.book.clone();
    lent.accepts("O 2 6 3");
    assert_eq!(lent.book[1..], book[1..]);
    assert_eq!(lent.book[0], 4);
    lent.accepts("N 2 200");
    assert_eq!(lent.refuses("O 2 5 3"), 10);
}

#[test]
fn after_z_both_are_4_and_before_9_and_10() {
    for line in ["K 5 1", "K 1 1", "K 5 5", "O 1 5 2", "O 1 0 9"] {
        assert_eq!(refusal(&["N 1 100 5", "Z", line]), 4, "{line}");
    }
    assert_eq!(refusal(&["Z", "K 4096 1"]), 3);
    assert_eq!(refusal(&["Z", "O 1 5"]), 2);
}

#[test]
fn they_count_as_lines() {
    let lines = ["K 5 1", "N 1 100 5", "O 1 5 5", "X 1 6"];
    assert_eq!(findings(&lines), ["4 10 1 6"]);
    let lines = ["K 5 1", "N 1 100 5", "C 1 100 21 5 0 0 0", "R 1 21 6 0"];
    assert_eq!(
        Slices::after(room(8, 8), &lines).rows[5..10],
        [0, 6, 0, 4, 0],
        "the making line"
    );
}

// ---- refusals 9 and 10

#[test]
fn k_of_a_class_that_is_declared_or_reserved_is_9() {
    assert_eq!(refusal(&["K 5 1", "K 5 1"]), 9);
    assert_eq!(refusal(&["K 5 1", "K 5 2"]), 9);
    for class in 1..=4 {
        assert_eq!(refusal(&[&format!("K {class} 1")]), 9);
    }
    assert_eq!(refusal(&["K 5 1", "K 2 5"]), 9);
}

#[test]
fn k_of_itself_or_of_an_unknown_super_is_9() {
    assert_eq!(refusal(&["K 5 5"]), 9);
    assert_eq!(refusal(&["K 5 6"]), 9);
    assert_eq!(refusal(&["K 5 4095"]), 9);
    assert_eq!(refusal(&["K 5 1", "K 7 6"]), 9);
    assert_eq!(findings(&["K 5 1", "K 6 5", "K 7 6", "K 4095 7"]), NONE);
}

#[test]
fn o_of_an_unknown_class_is_9_before_10() {
    assert_eq!(refusal(&["N 1 100 5", "O 1 5 5"]), 9);
    assert_eq!(refusal(&["N 1 100 5", "O 1 9 5"]), 9);
    assert_eq!(refusal(&["O 1 0 4095"]), 9);
    assert_eq!(refusal(&["K 5 1", "N 1 100 5", "O 1 5 6"]), 9);
    assert_eq!(refusal(&["O 1 0 4"]), 10);
}

#[test]
fn o_on_what_is_not_alive_is_10() {
    let opening = [
        "N 1 100 5 9",
        "N 2 200 13",
        "C 1 100 21 5 0 0 0",
        "R 1 21 6 0",
        "C 1 100 23 9 0 0 0",
        "R 1 23 0 0",
    ];
    let refused = |line| refusal(&[&opening[..], &[line]].concat());
    for line in [
        "O 1 0 2", "O 1 8 2", "O 1 4 2", "O 1 13 2", "O 2 5 2", "O 1 9 2", "O 1 17 2", "O 1 10 2",
        "O 1 7 2", "O 3 5 2",
    ] {
        assert_eq!(refused(line), 10, "{line}");
    }
    let mut lent = Slices::after(room(8, 8), &opening);
    for line in ["O 1 5 2", "O 2 13 2", "O 1 6 2", "O 2 6 2", "O 16 6 2"] {
        lent.accepts(line);
    }
}

#[test]
fn neither_gives_7_where_all_is_full() {
    let mut lent = Slices::after(room(1, 0), &["N 1 100 5"]);
    lent.accepts("K 5 1");
    lent.accepts("O 1 5 5");
    let mut empty = Slices::new(room(0, 0));
    empty.accepts("K 5 1");
    assert_eq!(empty.refuses("O 1 5 5"), 10);
}

// ---- tables

#[test]
fn k_writes_the_super_at_its_class_and_nothing_else() {
    let mut lent = Slices::after(room(2, 2), &["K 5 3"]);
    assert_eq!(lent.classes[4], 3);
    lent.accepts("K 4095 5");
    assert_eq!(lent.classes[4_094], 5);
    assert_eq!(
        lent.classes.iter().filter(|&&number| number != 0).count(),
        2
    );
    assert_eq!(lent.book[0], 2);
    assert!(lent.book[1..].iter().all(|&number| number == 0));
}

#[test]
fn o_writes_the_fifth_number_and_nothing_else() {
    let mut lent = Slices::after(room(3, 0), &["K 300 1", "N 1 100 5 9"]);
    let mut before = lent.clone();
    lent.accepts("O 1 9 300");
    before.rows[9] = 300;
    before.book[0] += 1;
    assert_eq!(lent, before);
}

#[test]
fn standings_agree_with_what_is_judged() {
    let mut classes = vec![0; 4_095];
    for (class, superclass) in [
        (5, 2),
        (6, 5),
        (7, 1),
        (8, 9),
        (9, 8),
        (10, 10),
        (11, 12),
        (13, 4_096),
        (14, (1 << 32) + 2),
        (15, u64::MAX),
        (4_095, 6),
    ] {
        classes[class - 1] = superclass;
    }
    let (classes, _) = Classes::split(&mut classes);
    for stated in (1..20).chain([4_094, 4_095, 4_096, 1 << 32, (1 << 32) + 2, u64::MAX]) {
        for fixed in 2..=4 {
            let standing = Standing::of(&classes, stated, fixed);
            assert_eq!(standing.is_right(), classes.is_within(stated, fixed));
        }
    }
    let of = |stated| Standing::of(&classes, stated, 2);
    assert_eq!(of(0), Standing::Unstated);
    assert_eq!(of(2), Standing::Itself);
    assert_eq!(of(4_095), Standing::Below(3));
    assert_eq!(of(7), Standing::Under(1, 1));
    assert_eq!(of(8), Standing::Circle);
    assert_eq!(of(10), Standing::Circle);
    assert_eq!(of(11), Standing::Lost);
    assert_eq!(of(13), Standing::Lost);
    assert_eq!(of(14), Standing::Lost);
    assert_eq!(of(15), Standing::Lost);
    assert_eq!(of(4_096), Standing::Lost);
}
