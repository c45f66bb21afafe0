//! The maker of foreign tables and of lines over them.

use crate::common::Lent;
use plain::coverage::Coverage;
use plain::foreign::{a_z, line, make, of_list, piece, LONG};
use plain::lent::book::CLOSED;
use plain::lent::piece::{judge_piece, END, FAR, MORE};
use plain::lent::rows::LINE;
use plain::lent::slices::Slices;
use plain::limits::{Number, PIN_NUMBERS, REFERENCE_NUMBERS};
use plain::random::Random;
use std::collections::BTreeSet;

#[test]
fn every_refusal_rule_place_and_kind_of_leak_comes_up_over_foreign_tables() {
    let mut coverage = Coverage::of_foreign();
    let mut profiles = BTreeSet::new();
    for seed in 0..5_000 {
        let mut random = Random::new(seed);
        let mut foreign = make(&mut random);
        profiles.insert(foreign.profile);
        for _ in 0..10 {
            let line = line(&foreign.slices.tables(), &mut foreign.lines, &mut random);
            coverage.look(&foreign.slices.tables(), &line);
            let stepped = foreign.slices.tested_step(&line);
            coverage.add(&foreign.slices.tables(), &line, &stepped);
        }
        if let (Some(closed), true) = (foreign.slices.book.get_mut(CLOSED), random.percent(50)) {
            *closed = a_z(&mut random);
        }
        let leaks = foreign.slices.tables().leaks();
        let needed = leaks.as_ref().map_or(0, Vec::len);
        let (reply, list) = foreign.slices.lists(of_list(&mut random, needed));
        let written = 4 * usize::try_from(reply).unwrap_or(0);
        assert!(list[written..].iter().all(|&number| number == 9));
        let listed = if reply < 0 { Err(-reply as u8) } else { leaks };
        coverage.add_list(&listed);
        foreign.slices.start();
        coverage.add_start();
    }
    assert!(coverage.is_whole(), "{coverage}");
    assert_eq!(profiles.len(), 6, "{profiles:?}");
}

#[test]
fn every_refusal_rule_and_place_comes_up_in_long_pieces_and_each_sort_of_piece() {
    let mut coverage = Coverage::of_foreign_pieces();
    let (mut replies, mut taken_whole, mut lengths) = (BTreeSet::new(), 0, BTreeSet::new());
    for seed in 0..12_000 {
        let mut random = Random::new(seed);
        let mut foreign = make(&mut random);
        let piece = piece(&mut foreign.slices.clone(), &mut foreign.lines, &mut random);
        let ended = random.percent(50);
        let (mut out, mut far) = (vec![0; 50_000], [0; FAR]);
        let step = |line: &[u8]| {
            if piece.len() >= LONG {
                coverage.look(&foreign.slices.tables(), line);
            }
            let stepped = foreign.slices.step(line);
            if piece.len() >= LONG {
                coverage.add(&foreign.slices.tables(), line, &stepped);
            }
            stepped
        };
        replies.insert(judge_piece(step, &piece, ended, &mut out, &mut far));
        taken_whole += u64::from(piece.len() >= LONG && far[0] == piece.len() as u64);
        if (LONG - 1..=LONG).contains(&piece.len()) {
            lengths.insert(piece.len());
        }
    }
    assert!(coverage.is_whole(), "{coverage}");
    let all = (-10..0).chain([MORE, END]);
    assert_eq!(replies, all.collect());
    assert!(taken_whole > 50, "{taken_whole}");
    assert_eq!(lengths, BTreeSet::from([LONG - 1, LONG]));
}

#[test]
fn the_same_seed_makes_the_same_tables_and_lines() {
    let made = |seed| {
        let mut random = Random::new(seed);
        let mut foreign = make(&mut random);
        let line = line(&foreign.slices.tables(), &mut foreign.lines, &mut random);
        (foreign.slices, foreign.lines, line)
    };
    for seed in 0..50 {
        assert_eq!(made(seed), made(seed));
    }
}

#[test]
fn no_step_looks_at_a_making_line() {
    for seed in 0..2_000 {
        let mut random = Random::new(seed);
        let mut foreign = make(&mut random);
        let mut other = with_lines(&foreign.slices, || random.number() as Number);
        for _ in 0..6 {
            let line = line(&foreign.slices.tables(), &mut foreign.lines, &mut random);
            let stepped = foreign.slices.tested_step(&line);
            assert_eq!(stepped, other.tested_step(&line));
            let bare = |slices| with_lines(slices, || 0);
            assert_eq!(bare(&foreign.slices), bare(&other));
        }
    }
}

/// The tables with other making lines in their whole rows.
fn with_lines(slices: &Slices, mut line: impl FnMut() -> Number) -> Slices {
    let mut slices = slices.clone();
    for row in slices.rows.as_chunks_mut::<REFERENCE_NUMBERS>().0 {
        row[LINE] = line();
    }
    for row in slices.pins.as_chunks_mut::<PIN_NUMBERS>().0 {
        row[LINE] = line();
    }
    slices
}
