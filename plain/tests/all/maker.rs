//! The makers of traces and the shrinker.

use crate::common::{room, trace};
use plain::big::slot::slot_of;
use plain::big::{big, kind, natives, Kind, KINDS};
use plain::chosen::{candidates, chosen};
use plain::coverage::Coverage;
use plain::facts::FAMILIES;
use plain::indexed::Indexes;
use plain::judge::Judge;
use plain::lent::book::Top;
use plain::lent::lookup::{Buffers, Handles};
use plain::lent::references::HANDLE;
use plain::lent::rows::THREAD;
use plain::make::{make, profile, Made, PROFILES};
use plain::random::Random;
use plain::report::report;
use plain::room::{Room, LENT};
use plain::shrink::shrink;
use plain::sights::sights;
use plain::walk::walk;
use std::collections::BTreeSet;

/// A usual trace of each profile from each of so many seeds.
pub fn made_traces(seeds: u64) -> impl Iterator<Item = Vec<u8>> {
    let made = |seed| {
        PROFILES.iter().map(move |profile| {
            let (fewest, most) = profile.usual_lines;
            let lines = Random::new(seed).between(fewest, most) as usize;
            make(profile, seed, lines, LENT)
        })
    };
    (0..seeds).flat_map(made)
}

#[test]
fn every_refusal_rule_place_function_and_kind_of_leak_comes_up() {
    let mut coverage = Coverage::of_traces_and_lists();
    for trace in made_traces(60) {
        let mut judge = coverage.add_trace(&trace, LENT);
        coverage.add_list(&judge.leaks());
    }
    for made in walk() {
        coverage.add_trace(&made.trace, made.room);
    }
    assert!(coverage.is_whole(), "{coverage}");
}

#[test]
fn the_walk_shows_what_each_function_takes_and_gives_and_what_it_does_not() {
    let (mut closed, mut refused) = (0, 0);
    let of_functions =
        |made: &Made| ["function", "release"].contains(&made.name.split(' ').next().unwrap());
    for made in walk().into_iter().filter(of_functions) {
        let report = report(&made.trace, made.room);
        let report = String::from_utf8(report).unwrap();
        let end: Vec<&str> = report.lines().last().unwrap().split('\t').collect();
        let accepted = made.lines().count() - usize::from(end[1] == "refused");
        assert_eq!(end[2], accepted.to_string(), "{}", made.name);
        match (end[1], end[3]) {
            ("closed", "0") => closed += 1,
            ("refused", "3") => refused += 1,
            _ => panic!("{}: {report}", made.name),
        }
    }
    // A trace of each function and of each release; unused places and capacities, results of another kind.
    assert_eq!(closed, 229 + 12);
    let results = 168 * 4 + (37 + 6 + 1 + 1) * 3 + 12;
    assert_eq!(refused, 300 + 227 + results);
}

#[test]
fn each_release_ends_the_buffer_of_its_family_alone() {
    let walk = walk();
    let releases = walk.iter().filter(|made| made.name.starts_with("release "));
    for (family, made) in releases.enumerate() {
        let report = report(&made.trace, made.room);
        let report = String::from_utf8(report).unwrap();
        let things = report
            .lines()
            .filter_map(|line| line.split_once("\t8\t2\t"));
        let things: Vec<usize> = things.map(|(_, thing)| thing.parse().unwrap()).collect();
        let others = (0..FAMILIES.len()).filter(|&other| other != family);
        assert_eq!(
            things,
            others.map(|other| 8_000 + other).collect::<Vec<_>>()
        );
    }
}

#[test]
fn the_walk_goes_as_deep_as_a_thread_may_and_one_deeper() {
    let walk = walk();
    let deep = walk.iter().filter(|made| made.name.starts_with("deep "));
    let reports = deep.map(|made| report(&made.trace, made.room));
    let pushed = 1 + 63 * 2;
    let lines = [64, pushed + 1, pushed + 1];
    let expected = lines.map(|lines| format!("end\trefused\t{lines}\t7\t0\n").into_bytes());
    assert_eq!(reports.collect::<Vec<_>>(), expected);
}

#[test]
fn the_chosen_traces_show_all_that_the_candidates_show() {
    let shown = |traces: &[Made]| -> BTreeSet<String> {
        let sights = |made: &Made| sights(&made.trace, made.room);
        traces.iter().flat_map(sights).collect()
    };
    let (candidates, chosen) = (candidates(3), chosen(3));
    assert_eq!(shown(&chosen), shown(&candidates));
    assert_shown(&filled(), &shown(&chosen));
    assert_shown(&classed(), &shown(&chosen));
    assert_shown(&attached(), &shown(&chosen));
    assert!(chosen.len() * 20 < candidates.len(), "{}", chosen.len());
    let lines: usize = chosen.iter().map(|made| made.lines().count()).sum();
    assert!(lines < 8_000, "{lines}");
}

#[test]
fn what_leaks_show_comes_up() {
    let leaks = profile("leaks").unwrap();
    let traces = (0..200).map(|seed| make(leaks, seed, 150, LENT));
    let sights = |trace: Vec<u8>| sights(&trace, LENT);
    let shown: BTreeSet<String> = traces.flat_map(sights).collect();
    let mut wanted = Vec::new();
    for (earlier, later) in [(false, false), (false, true), (true, false), (true, true)] {
        for buffers in [
            "one ordinary",
            "more ordinary",
            "one critical",
            "more critical",
        ] {
            let leak = format!("leak: {buffers}, released earlier {earlier}, later {later}");
            wanted.push(leak);
        }
        wanted.push(format!("leak: global, made by R, again {earlier}"));
        wanted.push(format!("leak: weak, made by R, again {earlier}"));
        wanted.push(format!("more leaks, refused {earlier}"));
    }
    for (rules, rows) in [
        ("Less", ""),
        ("Greater", ""),
        ("Equal", "Less"),
        ("Equal", "Greater"),
    ] {
        wanted.push(format!("leaks: rules {rules}, rows {rows}"));
    }
    assert_shown(&wanted, &shown);
}

/// What frames show that are filled, and one over, by the arguments of their native.
fn filled() -> Vec<String> {
    let mut filled = Vec::new();
    for over in [false, true] {
        let mut add = |sight: &str| filled.push(format!("R: over {over}, {sight}"));
        for count in 0..=8 {
            add(&format!("native of {count}"));
        }
        for nested in ["None", "Some(Less)", "Some(Greater)"] {
            add(&format!("native, beside the outermost {nested}"));
        }
        add("native, argument ended true");
        add("pushed false, arguments true, capacity by 26");
        add("pushed false, arguments true, capacity kept by 26");
        add("pushed true, arguments true, capacity by 19");
    }
    filled
}

#[test]
fn frames_are_filled_whatever_the_arguments() {
    let overflow = profile("overflow").unwrap();
    let traces = (0..200).map(|seed| make(overflow, seed, 250, LENT));
    let sights = |trace: Vec<u8>| sights(&trace, LENT);
    assert_shown(&filled(), &traces.flat_map(sights).collect());
}

/// What classes show: how they stand to their places, how handles come to them, and what is refused.
fn classed() -> Vec<String> {
    let mut classed = Vec::new();
    let mut add = |sight: String| classed.push(sight);
    for fixed in 2..=4 {
        for told in ["unstated", "itself", "below by one", "below by two"] {
            add(format!("class {fixed}: {told}"));
        }
        for other in (1..=4).filter(|&other| other != fixed) {
            add(format!("class {fixed}: below {other} by no"));
            add(format!("class {fixed}: below {other} by one"));
        }
    }
    for place in [
        "1 of r--", "1 of rr-", "2 of rr-", "2 of or-", "2 of rri", "1 of ro-",
    ] {
        for standing in ["unstated", "itself", "below", "another"] {
            add(format!("class: place {place}, {standing}"));
        }
    }
    for (by, right, otherwise) in [
        ("31", true, true),
        ("31", false, true),
        ("O", true, true),
        ("O", false, true),
        ("O over O", true, false),
        ("O over O", false, true),
        ("O over 31", true, false),
        ("O over 31", false, true),
        ("copy by 20", true, false),
        ("copy by 21", true, false),
        ("copy by 25", true, false),
        ("copy by 226", true, false),
        ("N again", true, false),
        ("R again", true, false),
    ] {
        add(format!(
            "class: by {by}, right {right}, otherwise {otherwise}"
        ));
    }
    for right in [false, true] {
        for kind in ["global", "weak"] {
            add(format!(
                "class: {kind}, stated on another thread true, right {right}"
            ));
        }
        add(format!("class: local not alive, another's, right {right}"));
        add(format!(
            "class: local not alive, ended or none, right {right}"
        ));
        add(format!("K, items open {right}"));
        add(format!("O, thread open {right}, without lines {}", !right));
    }
    for root in 1..=4 {
        for letter in ["X", "r", "o"] {
            add(format!("no class: {letter}, stated below {root}"));
        }
        add(format!("K below {root}, directly true"));
        add(format!("K below {root}, directly false"));
    }
    for refused in [
        "4: K after Z",
        "4: O after Z",
        "9: K declared alone",
        "9: K reserved alone",
        "9: K of itself alone",
        "9: K super alone",
        "9: O class alone",
        "9 before 10: O",
        "10: O O null",
        "10: O O identity",
        "10: O O another's local",
        "10: O O local",
        "10: O O global",
        "10: O O weak",
        "10: ended by",
        "10: never made",
    ] {
        add(refused.to_string());
    }
    classed
}

#[test]
fn what_classes_show_comes_up() {
    let profiles = ["classes", "copies"].map(|name| profile(name).unwrap());
    let traces = profiles
        .into_iter()
        .flat_map(|profile| (0..600).map(move |seed| make(profile, seed, 150, LENT)));
    let sights = |trace: Vec<u8>| sights(&trace, LENT);
    let shown: BTreeSet<String> = traces.flat_map(sights).collect();
    assert_shown(&classed(), &shown);
}

/// What attached threads show: what they may follow, what they bring, and what is left of them.
fn attached() -> Vec<String> {
    let mut attached = Vec::new();
    let mut add = |sight: String| attached.push(sight);
    for (letter, tops) in [
        ("A", ["native", "attached", "call"]),
        ("D", ["nothing", "native", "call"]),
    ] {
        for top in tops {
            add(format!("4: {letter} {letter} over {top} over {top}"));
        }
        add(format!("4: {letter} after Z"));
    }
    for letter in ["N", "X", "R"] {
        add(format!("4: {letter} {letter} over attached over attached"));
    }
    for open in ["N over nothing", "A"] {
        add(format!("{open}: env by nothing").replace("nothing:", "nothing,"));
        for by in ["N", "A"] {
            for close in ["X", "D"] {
                let entered = format!("env by {by}, closed by {close}");
                add(format!("{open}: {entered}").replace("nothing:", "nothing,"));
            }
        }
    }
    for letter in ["N", "A"] {
        for idle in [false, true] {
            add(format!("5: {letter} shared, sharer idle {idle}"));
        }
        for (by, close) in [("N", "X"), ("A", "D")] {
            add(format!(
                "5: {letter} changed, env by {by}, closed by {close}"
            ));
        }
    }
    for seen in [
        "A: pending true",
        "A: more monitors",
        "C over attached: own env false",
        "C: pending false by A",
        "N over call, lowest attached",
        "20: attached, of one frames",
        "20: pushed true, below Some(false)",
        "R: over false, attached",
        "R: over true, attached",
        "Z: attached true",
        "D: no locals, others false",
        "D: more locals, others true",
        "D: more locals in more frames",
        "D: no monitors, others true",
        "D: one monitors",
        "D: more monitors",
        "D: one monitors, held before A",
        "D: more monitors, held before A",
        "D: no monitors, by D",
        "D: not critical, others true",
        "D: one critical",
        "D: more critical",
        "D: 2 findings",
        "218: no monitors, by D",
        "local alive false, ended by D of one frames, above false",
        "local alive false, ended by D of more frames, above false",
        "local alive false, ended by D of more frames, above true",
        "local alive true, not ended by D of one frames, of its thread false",
        "global alive true, not ended by D",
        "b: null false, one critical, D",
        "N names ended by D",
        "R makes ended by D",
    ] {
        add(seen.to_string());
    }
    attached
}

#[test]
fn what_attached_threads_show_comes_up() {
    let profiles = ["polls", "polling", "overflow"].map(|name| profile(name).unwrap());
    let traces = profiles
        .into_iter()
        .flat_map(|profile| (0..600).map(move |seed| make(profile, seed, 100, LENT)));
    let sights = |trace: Vec<u8>| sights(&trace, LENT);
    assert_shown(&attached(), &traces.flat_map(sights).collect());
}

#[test]
fn attached_threads_leave_the_others_most_of_the_room() {
    let (mut entered, mut attached) = (0, 0);
    for trace in made_traces(10) {
        let mut judge = Judge::new(LENT);
        for line in trace.split_inclusive(|&byte| byte == b'\n') {
            let idle = (1..=16).map(|thread| judge.tables().book.items(thread) == 0);
            let idle: Vec<bool> = idle.collect();
            if judge.step(line).is_err() {
                break;
            }
            let mut opened = (1..=16).zip(idle).filter(|&(_, was_idle)| was_idle);
            match opened.find_map(|(thread, _)| {
                Some(judge.tables().book.top(thread)).filter(|top| *top != Top::Nothing)
            }) {
                Some(Top::Attached) => attached += 1,
                Some(_) => entered += 1,
                None => {}
            }
        }
    }
    let percent = 100 * attached / (attached + entered);
    assert!((8..=25).contains(&percent), "{attached} of {entered}");
}

/// Each that is wanted starts one that is shown.
#[track_caller]
fn assert_shown(wanted: &[String], shown: &BTreeSet<String>) {
    for sight in wanted {
        assert!(
            shown.iter().any(|shown| shown.starts_with(sight)),
            "{sight}"
        );
    }
}

#[test]
fn a_sight_tells_what_came_before_a_judgement() {
    let pushed = [
        "N 1 100 5",
        "C 1 100 19 0 0 0 1",
        "R 1 19 0 0",
        "C 1 100 6 0 0 0 0",
        "R 1 6 9 0",
        "C 1 100 20 9 0 0 0",
        "R 1 20 0 0",
        "C 1 100 24 5 9 0 0",
    ];
    let sights = sights(&trace(&pushed), LENT);
    for sight in [
        "R: over false, pushed of one",
        "R: over false, capacity by 19 of 1, last called true",
        "R makes never made, just now false, elsewhere false",
        "20: pushed of one, of more frames",
        "20: pushed true, below Some(false)",
        "local alive true, not ended by 20, of its thread true, elsewhere false",
        "local alive false, ended by 20, above false, condemned false, elsewhere false",
    ] {
        assert!(sights.contains(sight), "{sight}: {sights:#?}");
    }
}

#[test]
fn the_same_seed_makes_the_same_trace() {
    for profile in &PROFILES {
        let make = |seed| make(profile, seed, 60, LENT);
        assert_eq!(make(5), make(5));
        assert_ne!(make(5), make(6));
    }
}

#[test]
fn small_traces_reach_all_but_depth_in_rooms_of_0_to_8_rows() {
    let small = PROFILES.iter().find(|profile| profile.name == "small");
    let mut refusals = [0; 11];
    for seed in 0..4_000 {
        let seed_part = |by: usize| seed as usize / by % 9;
        let room = Room {
            references: seed_part(1),
            pins: seed_part(9),
            identities: seed_part(81),
        };
        let lines = 5 + seed as usize % 21;
        let trace = make(small.unwrap(), seed, lines, room);
        let count = trace.split_inclusive(|&byte| byte == b'\n').count();
        assert!(count <= lines + 5, "{count} lines for {lines}");
        let report = String::from_utf8(report(&trace, room)).unwrap();
        let end: Vec<&str> = report.lines().last().unwrap().split('\t').collect();
        refusals[end[3].parse::<usize>().unwrap()] += 1;
    }
    // From a start there is no 8.
    refusals[8] += 1;
    assert!(refusals.iter().all(|&count| count > 0), "{refusals:?}");
}

#[test]
fn traces_run_long_before_they_are_refused() {
    let (mut accepted, mut made) = (0, 0);
    for seed in 0..20 {
        for profile in &PROFILES {
            let trace = make(profile, seed, 200, LENT);
            let mut judge = Judge::new(LENT);
            for line in trace.split_inclusive(|&byte| byte == b'\n') {
                made += 1;
                if judge.step(line).is_err() {
                    break;
                }
            }
            accepted += judge.tables().book.lines();
        }
    }
    assert!(accepted * 10 > made * 9, "{accepted} of {made}");
    assert!(accepted > 20 * PROFILES.len() as u64 * 120);
}

#[test]
fn big_traces_are_accepted_to_the_end_with_some_breaches() {
    let several = ["alive-16", "alive-1024"].map(|name| kind(name).unwrap());
    for kind in KINDS.into_iter().chain(several) {
        for lines in [1, 2, 100, 30_000] {
            let trace = big_trace(kind, lines);
            let report = report(&trace, kind.room);
            let report = String::from_utf8(report).unwrap();
            let end: Vec<&str> = report.lines().last().unwrap().split('\t').collect();
            assert_eq!(end[..4], ["end", "closed", &lines.to_string(), "0"]);
            let found: usize = end[4].parse().unwrap();
            assert!(
                lines < 30_000 || found > 10 && found * 50 < lines,
                "{}: {found}",
                kind.name
            );
        }
    }
}

#[test]
fn kinds_have_names() {
    for other in KINDS {
        assert_eq!(kind(other.name).unwrap().name, other.name);
    }
    for wrong in ["alive-", "alive-15", "alive-65537", "alive", "natives", ""] {
        assert!(kind(wrong).is_none(), "{wrong}");
    }
}

fn big_trace(kind: Kind, lines: usize) -> Vec<u8> {
    let mut trace = Vec::new();
    big(&kind, lines, &mut trace).unwrap();
    trace
}

/// What is measured after each line of a big trace from the one of this number on.
fn measured(
    name: &str,
    (first, lines): (usize, usize),
    measure: impl Fn(&mut Judge<Indexes>) -> usize,
) -> BTreeSet<usize> {
    let kind = kind(name).unwrap();
    let mut judge = Judge::indexed(kind.room);
    let mut measured = BTreeSet::new();
    let trace = big_trace(kind, lines);
    let trace = trace.split_inclusive(|&byte| byte == b'\n');
    for (line, number) in trace.zip(1..) {
        judge.step(line).unwrap();
        if number >= first {
            measured.insert(measure(&mut judge));
        }
    }
    measured
}

fn alive(judge: &mut Judge<Indexes>) -> usize {
    judge.tables().references.used()
}

fn outstanding(judge: &mut Judge<Indexes>) -> usize {
    judge.tables().pins.used()
}

#[test]
fn big_traces_keep_as_many_handles_alive_as_they_are_to() {
    for (name, lines, range) in [
        ("steady", (15_000, 40_000), 1_950..=2_048),
        ("oneslot", (15_000, 40_000), 1_950..=2_048),
        ("crowd", (33_500, 60_000), 15_800..=16_200),
        ("wide", (15_000, 40_000), 980..=1_024),
        ("recorded", (200, 40_000), 20..=100),
        ("alive-16", (200, 20_000), 14..=24),
        ("alive-64", (200, 20_000), 60..=68),
        ("alive-256", (700, 20_000), 250..=262),
        ("alive-1024", (2_300, 20_000), 1_010..=1_038),
        ("alive-4096", (8_700, 20_000), 4_050..=4_140),
        ("alive-16384", (34_500, 60_000), 16_200..=16_570),
        ("alive-65536", (135_500, 150_000), 64_800..=65_536),
    ] {
        let alive = measured(name, lines, alive);
        let ends = [alive.first(), alive.last()].map(|end| *end.unwrap());
        assert!(
            ends.iter().all(|end| range.contains(end)),
            "{name} {ends:?}"
        );
    }
}

#[test]
fn the_steady_trace_has_locals_in_16_threads() {
    let mut judge = Judge::new(KINDS[0].room);
    for line in big_trace(KINDS[0], 40_000).split_inclusive(|&byte| byte == b'\n') {
        judge.step(line).unwrap();
    }
    for thread in 1..=16 {
        let rows = judge.tables().references.rows;
        let own = rows.count(|row| row[THREAD] == thread);
        assert!(own > 30, "{own} locals of thread {thread}");
    }
}

#[test]
fn in_the_oneslot_trace_every_handle_has_the_same_slot() {
    let oneslot = kind("oneslot").unwrap();
    let mut judge = Judge::new(oneslot.room);
    for line in big_trace(oneslot, 30_000).split_inclusive(|&byte| byte == b'\n') {
        judge.step(line).unwrap();
    }
    let rows = judge.tables().references.rows;
    assert!(rows.used() > 1_900);
    assert!(rows
        .all_used()
        .all(|row| slot_of(row[THREAD], row[HANDLE]) == 1));
}

#[test]
fn the_nest_trace_is_deep_the_buffers_trace_full_and_the_turns_trace_not() {
    let depths = measured("nest", (1, 20_000), |judge| judge.tables().book.items(1));
    assert_eq!(depths.last(), Some(&64));
    let buffers = measured("buffers", (1, 20_000), outstanding);
    assert!(*buffers.last().unwrap() > 230);
    let turns = measured("turns", (1, 20_000), outstanding);
    assert!((2..=12).contains(turns.last().unwrap()), "{turns:?}");
}

#[test]
fn natives_try_the_most_lines() {
    let mut trace = Vec::new();
    natives(1_000_001, &mut trace).unwrap();
    assert_eq!(report(&trace, room(0, 0)), b"end\trefused\t1000000\t1\t0\n");
}

#[test]
fn the_shrinker_finds_the_smallest_trace() {
    let pops_unpushed = |part: &[u8]| {
        let mut judge = Judge::new(LENT);
        part.split_inclusive(|&byte| byte == b'\n')
            .map_while(|line| judge.step(line).ok().map(|found| (line, found)))
            .any(|(line, found)| {
                line.starts_with(b"C")
                    && found
                        .iter()
                        .any(|found| (found.rule, found.place) == (11, 0))
            })
    };
    let made = (0..)
        .map(|seed| make(&PROFILES[0], seed, 400, LENT))
        .find(|made| pops_unpushed(made))
        .unwrap();
    let small = shrink(&made, pops_unpushed);
    assert_eq!(small, trace(&["N 1 1", "C 1 1 20 0 0 0 0"]));
}
