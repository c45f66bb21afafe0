//! Numbers that are equal modulo 2^32 are different envs, handles, identities and buffers, and so are such numbers of foreign rows.

use crate::common::{findings, judged, judged_with, refusal, room, strs, trace, Lent};
use crate::maker::made_traces;
use plain::facts::{known, PlaceKind, ResultKind};
use plain::foreign::{line, make};
use plain::judge::Judge;
use plain::lent::leaks::Leak;
use plain::lent::pins::{BUFFER, FAMILY};
use plain::lent::references::{CLASS, FRAME, HANDLE};
use plain::lent::rows::THREAD;
use plain::lent::slices::Slices;
use plain::limits::{Handle, Number, PIN_NUMBERS, REFERENCE_NUMBERS};
use plain::line::{made, read, write, Event};
use plain::random::Random;
use plain::report::report_and_leaks;
use plain::room::LENT;
use plain::twin::{are_twins, twin_of, ADDRESS, HIGH};
use std::collections::BTreeMap;

const NONE: [&str; 0] = [];

#[test]
fn a_twin_differs_in_its_high_half_alone() {
    let mut random = Random::new(1);
    for number in [0, 5, HIGH - 1, HIGH, HIGH + 5, ADDRESS + 1, Number::MAX] {
        assert!(!are_twins(number, number));
        assert!(are_twins(twin_of(number, &mut random), number));
        assert!(!are_twins(number, number ^ 1));
    }
}

#[test]
fn two_handles_are_alive_at_once_and_each_ends_by_itself() {
    for (kind, make, end, rule) in [(1, 25, 23, 11), (2, 21, 22, 10), (3, 226, 227, 10)] {
        for half in [HIGH, 32_639 * HIGH, Number::MAX - (HIGH - 1)] {
            let (one, twin) = (16 + kind, 16 + kind + half);
            let mut lines = vec!["N 1 100 5".to_string()];
            let mut call = |function: u32, place: Handle, result: Handle| {
                lines.push(format!("C 1 100 {function} {place} 0 0 0"));
                lines.push(format!("R 1 {function} {result} 0"));
            };
            call(make, 5, one);
            call(25, twin, 0);
            call(make, one, twin);
            call(25, twin, 0);
            call(end, one, 0);
            call(25, twin, 0);
            call(25, one, 0);
            let (mut judge, found) = judged(&strs(&lines));
            assert_eq!(
                found,
                [format!("4 {rule} 1 {twin}"), format!("14 {rule} 1 {one}")]
            );
            let rows = judge.tables().references.rows;
            assert_eq!(rows.all_used().filter(|row| row[HANDLE] == twin).count(), 1);
            assert_eq!(rows.used(), 2);
        }
    }
}

#[test]
fn a_handle_is_made_beside_its_twin_and_not_twice() {
    let call = "C 1 100 6 0 0 0 0";
    let (mut judge, found) = judged(&["N 1 100 5 4294967301", call, "R 1 6 8589934597 0"]);
    assert!(found.is_empty());
    assert_eq!(judge.tables().references.rows.used(), 3);
    assert_eq!(refusal(&["N 1 100 5 4294967301 4294967301"]), 6);
    assert_eq!(
        refusal(&["N 1 100 4294967301", call, "R 1 6 4294967301 0"]),
        6
    );
}

#[test]
fn an_env_is_not_its_twin() {
    let other = 100 + HIGH;
    let call = format!("C 1 {other} 4 0 0 0 0");
    assert_eq!(findings(&["N 1 100", &call]), [format!("2 1 0 {other}")]);
    let enter = format!("N 1 {other}");
    assert_eq!(refusal(&["N 1 100", "X 1 0", &enter]), 5);
    let second = format!("N 2 {other}");
    let call = format!("C 2 {other} 4 0 0 0 0");
    assert_eq!(findings(&["N 1 100", &second, &call]), NONE);
    assert_eq!(refusal(&["N 1 100", &second, "N 3 100"]), 5);
    assert_eq!(refusal(&["N 1 100", &second, &format!("N 3 {other}")]), 5);
}

#[test]
fn a_buffer_is_not_released_by_its_twin() {
    for (get, release) in [(165, 166), (190, 198), (222, 223)] {
        let lines = [
            "N 1 100 5".to_string(),
            format!("C 1 100 {get} 5 0 0 0"),
            format!("R 1 {get} 8 0"),
            format!("C 1 100 {release} 5 4294967304 0 0"),
            format!("R 1 {release} 0 0"),
            format!("C 1 100 {get} 5 0 0 0"),
            format!("R 1 {get} 4294967304 0"),
            format!("C 1 100 {release} 5 8 0 0"),
            format!("R 1 {release} 0 0"),
            format!("C 1 100 {release} 5 8 0 0"),
            format!("R 1 {release} 0 0"),
            format!("C 1 100 {release} 5 4294967304 0 0"),
        ];
        let (mut judge, found) = judged(&strs(&lines));
        assert_eq!(found, ["4 8 2 4294967304", "10 8 2 8"]);
        assert_eq!(judge.tables().pins.rows.used(), 0);
    }
}

#[test]
fn a_multiple_of_2_to_the_32_is_no_null() {
    for (call, expected) in [
        ("C 1 100 31 4294967296 0 0 0", vec!["3 4 1 4294967296"]),
        ("C 1 100 24 5 4294967296 0 0", vec!["3 4 2 4294967296"]),
        ("C 1 100 37 5 4294967296 0 0", vec![]),
        ("C 1 100 166 5 4294967296 0 0", vec!["3 8 2 4294967296"]),
        ("X 1 4294967296", vec!["3 4 1 4294967296"]),
    ] {
        let lines = ["N 1 100 5", "M 4294967296 1 1 0 0", call];
        assert_eq!(findings(&lines), expected, "{call}");
    }
    let lines = ["N 1 100 5", "C 1 100 165 5 0 0 0", "R 1 165 4294967296 0"];
    let (mut judge, _) = judged(&lines);
    assert_eq!(judge.tables().pins.rows.all()[0], [0, 0, HIGH, 3]);
    assert_eq!(refusal(&["N 1 100", "O 1 4294967296 2"]), 10);
}

#[test]
fn a_class_is_stated_of_a_handle_and_not_of_its_twin() {
    assert_eq!(refusal(&["N 1 100 5", "O 1 4294967301 3"]), 10);
    let lines = ["N 1 100 5 4294967301", "O 1 4294967301 3", "O 1 5 4"];
    let found = |value: Handle| {
        let call = format!("C 1 100 164 {value} 0 0 0");
        findings(&[&lines[..], &[&call]].concat())
    };
    assert_eq!(found(4_294_967_301), NONE);
    assert_eq!(found(5), ["4 4 1 5"]);
}

#[test]
fn rows_findings_reports_and_leaks_hold_the_greatest_numbers() {
    let lines = [
        "N 16 18446744073709551615 18446744073709551613",
        "C 16 18446744073709551615 21 18446744073709551613 0 0 0",
        "R 16 21 18446744073709551614 0",
        "C 16 18446744073709551614 222 18446744073709551609 0 0 0",
        "R 16 222 18446744073709551615 0",
        "Z",
    ];
    let (mut judge, _) = judged_with(room(2, 1), &lines);
    let slices = judge.slices();
    let (local, global) = (Number::MAX - 2, Number::MAX - 1);
    assert_eq!(slices.rows, [16, local, 1, 1, 0, 0, global, 0, 3, 0]);
    assert_eq!(slices.pins, [16, 10, Number::MAX, 5]);
    let leak = |rule, thread, value, line| Leak {
        rule,
        thread,
        value,
        line,
    };
    let leaks = [leak(10, 0, global, 3), leak(8, 16, Number::MAX, 5)];
    assert_eq!(judge.leaks().unwrap(), leaks);
    let report = [
        "4 1 0 18446744073709551614",
        "4 11 1 18446744073709551609",
        "6 8 0 1",
        "6 10 0 1",
        "end closed 6 0 4",
        "leak 10 0 18446744073709551614 3",
        "leak 8 16 18446744073709551615 5",
    ];
    let printed = report_and_leaks(&trace(&lines), room(2, 1));
    assert_eq!(printed, trace(&report));
}

// ---- foreign rows

#[test]
fn the_thread_of_a_row_is_not_cut_to_32_bits() {
    let mut lent = Slices::after(room(8, 8), &["N 1 100 9"]);
    lent.put_reference(1, [HIGH + 1, 5, 1, 7]);
    lent.put_reference(2, [HIGH, 6, 0, 7]);
    lent.put_pin(0, [HIGH + 1, 10, 8, 7]);
    lent.put_pin(1, [HIGH, 0, 8, 7]);
    assert_eq!(lent.accepts("C 1 100 24 5 6 0 0"), ["2 10 2 6", "2 11 1 5"]);
    lent.accepts("R 1 24 0 0");
    assert_eq!(lent.accepts("C 1 100 223 9 8 0 0"), ["4 8 2 8"]);
    lent.accepts("R 1 223 0 0");
    assert_eq!(lent.accepts("C 1 100 166 9 8 0 0"), ["6 8 2 8"]);
    lent.accepts("R 1 166 0 0");
    assert!(lent.accepts("X 1 0").is_empty());
    assert_eq!((&lent.marks[..], &lent.pin_marks[..]), (&[6][..], &[3][..]));
    assert_eq!(lent.accepts("Z"), ["9 8 0 2"]);
}

#[test]
fn the_frame_of_a_row_is_not_cut_to_32_bits() {
    let push = ["N 1 100", "C 1 100 19 0 0 0 1", "R 1 19 0 0"];
    let mut lent = Slices::after(room(8, 8), &push);
    lent.put_reference(0, [1, 5, HIGH + 2, 7]);
    lent.put_reference(1, [1, 9, HIGH + 1, 7]);
    lent.accepts("C 1 100 6 0 0 0 0");
    assert!(lent.accepts("R 1 6 13 0").is_empty());
    lent.accepts("C 1 100 20 0 0 0 0");
    assert_eq!(lent.marks, [0]);
}

#[test]
fn the_family_of_a_row_is_not_cut_to_32_bits() {
    let mut lent = Slices::after(room(8, 8), &["N 1 100 5"]);
    lent.put_pin(0, [0, HIGH + 3, 8, 7]);
    assert_eq!(lent.accepts("C 1 100 192 5 8 0 0"), ["2 8 2 8"]);
    assert_eq!(lent.pin_marks, [1]);
}

// ---- the makers tell a judge that cuts numbers to 32 bits from one that does not

/// The event with its values of one sort modulo 2^32, as far as a line can have them.
fn cut(event: Event, sort: &str) -> Event {
    let of = |wanted, value| if sort == wanted { value % HIGH } else { value };
    let named = |value| of("handles", value);
    match event {
        Event::N {
            thread,
            env,
            count,
            handles,
        } => Event::N {
            thread,
            env: of("envs", env).max(1),
            count,
            handles: handles.map(named),
        },
        Event::X { thread, result } => Event::X {
            thread,
            result: named(result),
        },
        Event::C {
            thread,
            env,
            function,
            places: [a, b, c],
            capacity,
        } => {
            let kinds = known(function).places;
            let place = |kind, value| match kind {
                PlaceKind::Identity(_) => of("identities", value),
                PlaceKind::Buffer(_) => of("buffers", value),
                _ => named(value),
            };
            Event::C {
                thread,
                env: of("envs", env).max(1),
                function,
                places: [place(kinds[0], a), place(kinds[1], b), place(kinds[2], c)],
                capacity,
            }
        }
        Event::R {
            thread,
            function,
            result,
            pending,
        } => Event::R {
            thread,
            function,
            result: match known(function).result {
                ResultKind::Status => result,
                ResultKind::Buffer(_) => of("buffers", made(result)).into(),
                ResultKind::Identity => of("identities", made(result)).into(),
                _ => named(made(result)).into(),
            },
            pending,
        },
        Event::O {
            thread,
            handle,
            class,
        } => Event::O {
            thread,
            handle: named(handle),
            class,
        },
        Event::A { thread, env } => Event::A {
            thread,
            env: of("envs of A", env).max(1),
        },
        Event::M {
            identity,
            sort,
            class,
            is_static,
            is_final,
        } => Event::M {
            identity: of("identities", identity).max(4),
            sort,
            class,
            is_static,
            is_final,
        },
        Event::D { .. } | Event::K { .. } | Event::Z => event,
    }
}

/// The refusal of a line, or the rules that it breaks and their places.
fn judgement(judge: &mut Judge, event: &Event) -> Result<Vec<(u8, u8)>, u8> {
    let mut line = [0; 225];
    let length = write(event, &mut line).unwrap();
    let findings = judge.step(&line[..length])?;
    Ok(findings
        .iter()
        .map(|found| (found.rule, found.place))
        .collect())
}

#[test]
fn made_traces_tell_a_judge_that_cuts_values() {
    let mut told: BTreeMap<&str, u32> = BTreeMap::new();
    for trace in made_traces(6) {
        for sort in ["envs", "envs of A", "handles", "identities", "buffers"] {
            let mut judges = [(); 2].map(|()| Judge::new(LENT));
            let lines = trace.split_inclusive(|&byte| byte == b'\n');
            let differs = |event: Event| {
                let [one, other] = &mut judges;
                judgement(one, &event) != judgement(other, &cut(event, sort))
            };
            let is_told = lines.map_while(|line| read(line).ok()).any(differs);
            *told.entry(sort).or_default() += u32::from(is_told);
        }
    }
    assert!(told.values().all(|&traces| traces >= 15), "{told:?}");
}

#[test]
fn foreign_tables_tell_a_judge_that_cuts_numbers_of_rows() {
    let columns = [THREAD, HANDLE, FRAME, CLASS].map(|column| (true, column));
    let pin_columns = [THREAD, FAMILY, BUFFER].map(|column| (false, column));
    let columns = [&columns[..], &pin_columns].concat();
    let mut told: BTreeMap<(bool, usize), u32> = BTreeMap::new();
    for seed in 0..15_000 {
        let mut random = Random::new(seed);
        let mut foreign = make(&mut random);
        let (is_reference, column) = random.pick(&columns);
        let mut other = foreign.slices.clone();
        let (numbers, width) = match is_reference {
            true => (&mut other.rows, REFERENCE_NUMBERS),
            false => (&mut other.pins, PIN_NUMBERS),
        };
        for number in numbers.iter_mut().skip(column).step_by(width) {
            *number %= HIGH;
        }
        let is_told = (0..24).any(|_| {
            let line = line(&foreign.slices.tables(), &mut foreign.lines, &mut random);
            let (wanted, given) = (foreign.slices.step(&line), other.step(&line));
            let marks = |slices: &Slices| (slices.marks.clone(), slices.pin_marks.clone());
            given != wanted || marks(&other) != marks(&foreign.slices)
        });
        *told.entry((is_reference, column)).or_default() += u32::from(is_told);
    }
    assert_eq!(told.len(), columns.len());
    assert!(told.values().all(|&cases| cases >= 4), "{told:?}");
}
