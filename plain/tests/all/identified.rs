//! What made traces, foreign tables and big traces show of identities.

use crate::common::{line, trace};
use plain::big::{big, kind};
use plain::chosen::chosen;
use plain::facts::{known, WITH_IDENTITY};
use plain::fit::Fit;
use plain::foreign::{self, make as make_foreign};
use plain::identity::Stated;
use plain::judge::Judge;
use plain::lent::identities::{FINAL, IDENTITY, SORT, STATIC};
use plain::limits::{IDENTITY_NUMBERS, MOST_CLASSES};
use plain::make::{make, profile};
use plain::random::Random;
use plain::report::report;
use plain::room::{Room, LENT};
use plain::sights::sights;
use plain::twin::HIGH;
use std::collections::{BTreeMap, BTreeSet};

/// What identities are to show.
fn identified() -> Vec<String> {
    let mut identified = Vec::new();
    let mut add = |sight: String| identified.push(sight);
    for function in [9, 12, 28, 95, 104, 114, 145, 154] {
        let wanted = known(function).wanted().unwrap();
        let fits = match wanted.is_static {
            Some(_) => &Fit::FLAGGED[..],
            None => &Fit::UNFLAGGED,
        };
        for fit in fits {
            add(format!("i: {}, {}", wanted.letters(), fit.name()));
        }
    }
    for fit in Fit::FLAGGED {
        add(format!("i: place 3, {}", fit.name()));
    }
    for (now, former) in [(0, 5), (5, 0), (6, 0), (0, 6), (5, 6), (6, 5)] {
        add(format!("i: rule {now}, by the former Some({former})"));
    }
    for (now, first) in [(0, 5), (5, 0), (6, 5)] {
        add(format!("i: rule {now}, by the first {first}"));
    }
    for (now, twin) in [(0, false), (0, true), (5, false), (5, true)] {
        add(format!("i: rule {now}, by a twin Some({twin})"));
    }
    for given in [false, true] {
        add(format!("i: rule 0, given by a function {given}"));
        add(format!("i: rule 5, given by a function {given}"));
    }
    for again in [false, true] {
        for sort in 1..=2 {
            for flags in ["0 0", "0 1", "1 0", "1 1"] {
                add(format!("M: {sort} {flags}, again {again}"));
            }
        }
        for reserved in [false, true] {
            add(format!("M: class reserved {reserved}, again {again}"));
        }
        for place in ["Less", "Equal", "Greater"] {
            add(format!("M: place Some({place}), again {again}"));
        }
        add(format!("M: one free, again {again}"));
        add(format!("M: items open {again}"));
    }
    for sight in [
        "M: no free, again true",
        "4: M after Z",
        "9: M class alone",
        "9 before 7: M",
        "7: M, room for no",
        "7: M, room for one",
        "7: M, room for more",
        "C: rule 5 at 2",
        "C: rule 5 at 3",
        "C: rule 6 at 2",
        "i: null",
        "i: local",
    ] {
        add(sight.to_string());
    }
    identified
}

#[test]
fn what_identities_show_comes_up_in_dense_traces_and_in_chosen_ones() {
    let dense = profile("identified").unwrap();
    let made = (0..3_000).flat_map(|seed| {
        let room = Room {
            identities: seed as usize % 5,
            ..LENT
        };
        let room = if seed % 3 == 0 { room } else { LENT };
        sights(&make(dense, seed, 40, room), room)
    });
    let made: BTreeSet<String> = made.collect();
    let chosen = chosen(4)
        .into_iter()
        .flat_map(|made| sights(&made.trace, made.room));
    let chosen: BTreeSet<String> = chosen.collect();
    for sight in identified() {
        let is_such = |shown: &String| shown.starts_with(&sight);
        assert!(made.iter().any(is_such), "{sight} is not made");
        assert!(chosen.iter().any(is_such), "{sight} is not chosen");
    }
}

#[test]
fn most_uses_of_identities_in_made_traces_are_right() {
    let (mut used, mut condemned) = (0, 0);
    for (name, most) in [("mixed", 40), ("functions", 40), ("identities", 55)] {
        for seed in 0..40 {
            let mut judge = Judge::new(LENT);
            for line in
                make(profile(name).unwrap(), seed, 200, LENT).split_inclusive(|&byte| byte == b'\n')
            {
                let is_use = line.starts_with(b"C") && {
                    let function = String::from_utf8_lossy(line);
                    let function = function
                        .split('\t')
                        .nth(3)
                        .and_then(|field| field.parse().ok());
                    function.is_some_and(|function| WITH_IDENTITY.contains(&function))
                };
                let Ok(found) = judge.step(line) else {
                    break;
                };
                used += u32::from(is_use);
                condemned += u32::from(found.iter().any(|found| [5, 6].contains(&found.rule)));
            }
        }
        assert!(
            condemned * 100 < used * most,
            "{name}: {condemned} of {used}"
        );
        assert!(condemned * 100 > used * 10, "{name}: {condemned} of {used}");
    }
}

#[test]
fn a_fit_tells_the_rule_that_is_broken() {
    let numbers = [0, 1, 2, 3, HIGH, HIGH + 1, HIGH + 2, u64::MAX];
    for function in WITH_IDENTITY {
        let wanted = known(function).wanted().unwrap();
        assert_eq!(Fit::of(wanted, None), Fit::Unstated);
        for sort in numbers {
            for is_static in numbers {
                for is_final in numbers {
                    let stated = Some(Stated {
                        sort,
                        is_static,
                        is_final,
                    });
                    let rule = Fit::of(wanted, stated).rule(wanted);
                    assert_eq!(
                        rule,
                        wanted.breach(stated).unwrap_or(0),
                        "{function} {stated:?}"
                    );
                }
            }
        }
    }
}

#[test]
fn foreign_tables_tell_a_judge_that_cuts_numbers_of_identities() {
    let mut told: BTreeMap<usize, u32> = BTreeMap::new();
    for seed in 0..10_000 {
        let mut random = Random::new(seed);
        let mut made = make_foreign(&mut random);
        let column = random.pick(&[IDENTITY, SORT, STATIC, FINAL]);
        let mut other = made.slices.clone();
        let numbers = other.classes.iter_mut().skip(MOST_CLASSES);
        for number in numbers.skip(column).step_by(IDENTITY_NUMBERS) {
            *number %= HIGH;
        }
        let is_told = (0..24).any(|_| {
            let line = foreign::line(&made.slices.tables(), &mut made.lines, &mut random);
            made.slices.step(&line) != other.step(&line)
        });
        *told.entry(column).or_default() += u32::from(is_told);
    }
    assert!(
        told.len() == 4 && told.values().all(|&cases| cases >= 3),
        "{told:?}"
    );
}

/// A big trace of this kind.
fn of_kind(name: &str, lines: usize) -> Vec<u8> {
    let mut trace = Vec::new();
    big(&kind(name).unwrap(), lines, &mut trace).unwrap();
    trace
}

#[test]
fn the_traces_of_a_thousand_identities_differ_in_what_the_calls_are_handed_alone() {
    const OPENING: usize = 2 + 2_000 + 1_000;
    let fields = |trace: &[u8]| -> Vec<Vec<String>> {
        let text = String::from_utf8(trace.to_vec()).unwrap();
        let fields = |line: &str| line.split('\t').map(String::from).collect();
        text.lines().map(fields).collect()
    };
    let [in_a_row, scattered, handles, bare] =
        ["identities", "scattered", "handles", "bare"].map(|name| fields(&of_kind(name, 24_000)));
    for (index, line) in in_a_row.iter().enumerate() {
        let others = [&scattered[index], &handles[index], &bare[index]];
        for other in others {
            assert_eq!((&line[0], line.len()), (&other[0], other.len()));
            if line[0] == "C" && index >= OPENING {
                assert_eq!((&line[1..3], &line[4]), (&other[1..3], &other[4]));
            }
        }
        assert_eq!(
            line.get(3).filter(|_| line[0] == "C"),
            scattered[index].get(3).filter(|_| line[0] == "C")
        );
    }
    for trace in [&in_a_row, &scattered] {
        let mut uses: BTreeMap<&str, usize> = BTreeMap::new();
        for line in trace[OPENING..].iter().filter(|line| line[0] == "C") {
            *uses.entry(&line[5]).or_default() += 1;
        }
        let (fewest, most) = (uses.values().min(), uses.values().max());
        assert_eq!(uses.len(), 1_000);
        assert!(most.unwrap() - fewest.unwrap() <= 1, "{fewest:?} {most:?}");
    }
}

#[test]
fn a_statement_is_looked_for_in_the_room_that_is_lent() {
    for identities in 1..40 {
        let room = Room { identities, ..LENT };
        let lines: Vec<String> = (1..=identities)
            .map(|index| format!("M {} 1 1 0 0", 4 * index * index))
            .chain(["N 1 100 5".to_string()])
            .chain(
                (1..=identities)
                    .map(|index| format!("C 1 100 61 5 {} 0 0", 4 * index * index))
                    .flat_map(|call| [call, "R 1 61 0 0".to_string()]),
            )
            .collect();
        let lines: Vec<&str> = lines.iter().map(String::as_str).collect();
        let printed = report(&trace(&lines), room);
        let expected = line(&format!("end open {} 0 0", lines.len()));
        assert_eq!(printed, expected);
    }
}
