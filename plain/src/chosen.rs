//! Traces chosen by what they show: short ones that show together all that many made traces show.

use crate::limits;
use crate::make::{make, profile, Made, DENSE, PROFILES};
use crate::random::Random;
use crate::room::{Room, LENT};
use crate::sights::sights;
use std::collections::BTreeMap;

/// How many traces there are to choose from, the most lines of one, and how many of those chosen are to show a sight.
const CANDIDATES: u64 = 20_000;
const MOST_LINES: u32 = 50;
const TIMES: u32 = 1;
/// The most bytes of a line before its LF, as what a longer line holds is not looked at.
const MOST_BYTES: usize = limits::MOST_BYTES + 3;

/// Traces chosen from candidates of their own for each seed.
pub fn chosen(seed: u64) -> Vec<Made> {
    let candidates = candidates(seed);
    let mut numbers = BTreeMap::new();
    let shown: Vec<Vec<usize>> = candidates
        .iter()
        .map(|made| shows(made, &mut numbers))
        .collect();
    let mut wanted = vec![0; numbers.len()];
    for &sight in shown.iter().flatten() {
        wanted[sight] = TIMES.min(wanted[sight] + 1);
    }
    let mut chosen = Vec::new();
    while wanted.iter().any(|&times| times > 0) {
        let worth = |index: &usize| {
            let wanted = shown[*index].iter().filter(|&&sight| wanted[sight] > 0);
            1_000_000 * wanted.count() / cost(candidates[*index].lines().count())
        };
        let best = (0..candidates.len())
            .max_by_key(worth)
            .expect("a candidate");
        let new: Vec<usize> = shown[best]
            .iter()
            .copied()
            .filter(|&sight| wanted[sight] > 0)
            .collect();
        let (made, shown) = shortened(&candidates[best], &new, &mut numbers);
        for sight in shown {
            wanted[sight] = wanted[sight].saturating_sub(1);
        }
        chosen.push(made);
    }
    chosen
}

pub fn candidates(seed: u64) -> Vec<Made> {
    let first = seed.wrapping_mul(CANDIDATES);
    let seeds = (0..CANDIDATES).map(|index| first.wrapping_add(index));
    seeds.map(candidate).collect()
}

/// What a trace of so many lines takes to judge by its history, in which each line looks at all before it.
fn cost(lines: usize) -> usize {
    (lines + 1) * (lines + 30)
}

/// The fewest first lines that show these sights, with all that they show.
fn shortened(
    made: &Made,
    wanted: &[usize],
    numbers: &mut BTreeMap<String, usize>,
) -> (Made, Vec<usize>) {
    let mut short = Made {
        trace: Vec::new(),
        ..made.clone()
    };
    for line in made.lines() {
        short.trace.extend_from_slice(line);
        let shown = shows(&short, numbers);
        if wanted.iter().all(|sight| shown.contains(sight)) {
            short.name += &format!(", the first {} lines", short.lines().count());
            return (short, shown);
        }
    }
    (made.clone(), shows(made, numbers))
}

/// The sights of a trace by their numbers; a new one gets the next.
fn shows(made: &Made, numbers: &mut BTreeMap<String, usize>) -> Vec<usize> {
    let sights = sights(&made.trace, made.room);
    let number = |sight| {
        let next = numbers.len();
        *numbers.entry(sight).or_insert(next)
    };
    sights.into_iter().map(number).collect()
}

/// A short trace of some profile, often a dense one or a single line at an edge; every third is in a few rows.
fn candidate(seed: u64) -> Made {
    let mut random = Random::new(!seed);
    let profile = match random.below(4) {
        0 | 1 => random.pick(&DENSE),
        2 => random.pick(&PROFILES),
        _ => *profile("edges").expect("a profile"),
    };
    let room = match random.below(3) {
        0 => Room {
            references: random.below(9),
            pins: random.below(5),
            identities: random.below(5),
        },
        _ => LENT,
    };
    let lines = match profile.usual_lines {
        (fewest, most) if most <= MOST_LINES => random.between(fewest, most),
        _ => random.between(0, MOST_LINES),
    } as usize;
    let mut made = Made {
        name: format!(
            "traces --profile {} --seed {seed} --lines {lines} --rooms {room}",
            profile.name
        ),
        room,
        trace: make(&profile, seed, lines, room),
    };
    let cut = |line: &[u8]| match line {
        [body @ .., b'\n'] => [&body[..body.len().min(MOST_BYTES)], b"\n"].concat(),
        _ => line[..line.len().min(MOST_BYTES)].to_vec(),
    };
    made.trace = made.lines().flat_map(cut).collect();
    made
}
