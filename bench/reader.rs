//! Holds the proved reader of lines to the plain one on every line of the given traces and on damaged ones, then times both.

#[allow(dead_code)] // nothing is written here
mod recorded;

use plain::called;
use plain::damage::{damage_bytes, damage_fields};
use plain::form::MOST_NUMBERS;
use plain::limits::Number;
use plain::line::read;
use plain::random::Random;
use std::collections::BTreeMap;
use std::hint::black_box;
use std::path::Path;
use std::process::ExitCode;
use std::time::Instant;

/// The best of so many rounds is taken, for each slice of so many lines.
const ROUNDS: usize = 25;
const SLICE: usize = 1000;
/// So many lines are damaged.
const DAMAGED: usize = 40_000;

/// The letter or minus the refusal, the numbers and their count; what stands there before is left on a refusal.
type Answer = (i32, [Number; MOST_NUMBERS], u32);

fn main() -> ExitCode {
    let files: Vec<String> = std::env::args().skip(1).collect();
    if files.is_empty() {
        eprintln!("usage: reader TRACE..");
        return ExitCode::from(2);
    }
    let mut traces = Vec::new();
    for file in &files {
        match std::fs::read(file) {
            Ok(trace) => traces.push(trace),
            Err(error) => {
                eprintln!("reader: {file}: {error}");
                return ExitCode::FAILURE;
            }
        }
    }
    let kinds: Vec<Vec<&[u8]>> = traces
        .iter()
        .map(|trace| trace.split_inclusive(|&byte| byte == b'\n').collect())
        .collect();
    let all: Vec<&[u8]> = kinds.iter().flatten().copied().collect();
    let spoiled = damaged(&all);
    let spoiled: Vec<&[u8]> = spoiled.iter().map(Vec::as_slice).collect();

    let mut by_answer: BTreeMap<u32, Vec<&[u8]>> = BTreeMap::new();
    for &line in all.iter().chain(&spoiled) {
        let (proved, plain) = (proved_answer(line), plain_answer(line));
        if proved != plain {
            println!("the readers differ on {:?}", String::from_utf8_lossy(line));
            println!("proved {proved:?}");
            println!("plain  {plain:?}");
            return ExitCode::FAILURE;
        }
        let answer = proved.0.unsigned_abs();
        by_answer.entry(answer).or_default().push(line);
    }
    println!(
        "same answer on {} lines, {} of them damaged",
        all.len() + spoiled.len(),
        spoiled.len()
    );

    println!(
        "{:10} {:>8} {:>6} {:>8} {:>8} {:>6}",
        "lines", "count", "bytes", "proved", "plain", "ratio"
    );
    for (file, lines) in files.iter().zip(&kinds) {
        let stem = Path::new(file).file_stem().unwrap_or_default();
        tell(&stem.to_string_lossy(), lines);
    }
    tell("damaged", &spoiled);
    for (answer, lines) in &by_answer {
        match answer {
            1..=3 => tell(&format!("refused {answer}"), lines),
            _ => tell(&char::from(*answer as u8).to_string(), lines),
        }
    }
    ExitCode::SUCCESS
}

/// Lines with a byte or a field changed, lost or added, lengthened or cut off, and odd ones.
fn damaged(lines: &[&[u8]]) -> Vec<Vec<u8>> {
    let mut random = Random::new(1);
    let mut all = Vec::new();
    while all.len() < DAMAGED {
        let mut one = vec![lines[random.below(lines.len())].to_vec()];
        if random.percent(50) {
            damage_fields(&mut one, &mut random);
        } else {
            damage_bytes(&mut one, &mut random);
        }
        all.append(&mut one);
    }
    all
}

fn proved_answer(line: &[u8]) -> Answer {
    let (mut numbers, mut count) = ([7; MOST_NUMBERS], 7);
    let letter = recorded::read(line, &mut numbers, &mut count);
    (letter, numbers, count)
}

/// The plain reader's answer in the same form.
fn plain_answer(line: &[u8]) -> Answer {
    let (mut numbers, mut count) = ([7; MOST_NUMBERS], 7);
    let letter = called::read(line, &mut numbers, &mut count);
    (letter, numbers, count)
}

/// Prints the nanoseconds a line takes each reader, and their ratio.
fn tell(name: &str, lines: &[&[u8]]) {
    let (proved, plain) = times(lines);
    let bytes = lines.iter().map(|line| line.len()).sum::<usize>() as f64 / lines.len() as f64;
    println!(
        "{name:10} {:8} {bytes:6.1} {proved:8.1} {plain:8.1} {:6.2}",
        lines.len(),
        proved / plain
    );
}

/// The nanoseconds a line takes the proved and the plain reader: each slice's best round, the readers taking turns.
fn times(lines: &[&[u8]]) -> (f64, f64) {
    let (mut proved_sum, mut plain_sum) = (0.0, 0.0);
    for slice in lines.chunks(SLICE) {
        let (mut proved_best, mut plain_best) = (f64::INFINITY, f64::INFINITY);
        for _ in 0..ROUNDS {
            proved_best = proved_best.min(time(|| {
                let (mut numbers, mut count) = ([0; MOST_NUMBERS], 0);
                for line in slice {
                    black_box(recorded::read(black_box(line), &mut numbers, &mut count));
                    black_box((&numbers, &count));
                }
            }));
            plain_best = plain_best.min(time(|| {
                for line in slice {
                    black_box(&read(black_box(line)));
                }
            }));
        }
        proved_sum += proved_best;
        plain_sum += plain_best;
    }
    (
        proved_sum / lines.len() as f64,
        plain_sum / lines.len() as f64,
    )
}

fn time(round: impl FnOnce()) -> f64 {
    let start = Instant::now();
    round();
    start.elapsed().as_nanos() as f64
}
