//! Measures the plain reader alone, the plain judge and the indexed one on a trace held in memory; the judges have the rows that the program lends, or others.

use plain::judge::Judge;
use plain::lent::lookup::Lookup;
use plain::line::read;
use plain::room::{Room, LENT};
use std::hint::black_box;
use std::process::ExitCode;
use std::time::Instant;

/// The best of so many rounds is told.
const ROUNDS: u32 = 7;

fn main() -> ExitCode {
    let arguments: Vec<String> = std::env::args().skip(1).collect();
    let Some((room, file)) = wish(&arguments) else {
        eprintln!("usage: measure [--rows REFERENCE_ROWS] TRACE");
        return ExitCode::from(2);
    };
    let trace = match std::fs::read(file) {
        Ok(trace) => trace,
        Err(error) => {
            eprintln!("measure: {file}: {error}");
            return ExitCode::FAILURE;
        }
    };
    let lines: Vec<&[u8]> = trace.split_inclusive(|&byte| byte == b'\n').collect();
    let reader = best(lines.len(), || {
        for line in &lines {
            let _ = black_box(read(black_box(line)));
        }
    });
    let judge = best(lines.len(), || {
        judge_all(Judge::new(room), &lines);
    });
    let indexed = best(lines.len(), || {
        judge_all(Judge::indexed(room), &lines);
    });
    println!("{} lines, {} bytes", lines.len(), trace.len());
    println!("reader {reader:.1} ns/line");
    println!("judge {judge:.1} ns/line");
    println!("indexed {indexed:.1} ns/line");
    ExitCode::SUCCESS
}

/// The room, and the file with the trace.
fn wish(arguments: &[String]) -> Option<(Room, &str)> {
    match arguments {
        [file] => Some((LENT, file)),
        [option, rows, file] if option == "--rows" => {
            let references = rows.parse().ok()?;
            Some((Room { references, ..LENT }, file))
        }
        _ => None,
    }
}

fn judge_all<L: Lookup>(mut judge: Judge<L>, lines: &[&[u8]]) {
    for line in lines {
        let _ = black_box(judge.step(black_box(line)));
    }
}

/// The nanoseconds a line takes in the best round.
fn best(lines: usize, mut round: impl FnMut()) -> f64 {
    let times = (0..ROUNDS).map(|_| {
        let start = Instant::now();
        round();
        start.elapsed().as_nanos() as f64
    });
    times.fold(f64::INFINITY, f64::min) / lines as f64
}
