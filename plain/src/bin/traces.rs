//! Prints made traces: one of a profile from a seed, a big one of a kind, or several with the plain judge's reports and leaks.
//!
//! Of several, each has a line `REFERENCE_ROWS PIN_ROWS IDENTITIES BYTES REPORT_BYTES NAME`, then its bytes, then those of its report with its leaks.

use plain::big::{self, big, natives};
use plain::chosen::chosen;
use plain::limits::MOST_LINES;
use plain::make::{make, profile, Made, Profile, DENSE, PROFILES};
use plain::report::report_and_leaks;
use plain::room::{Room, LENT};
use plain::walk::walk;
use std::io::{self, BufWriter, Write};
use std::process::ExitCode;

/// What the arguments ask for.
enum Wish {
    Made {
        profile: &'static Profile,
        seed: u64,
        lines: usize,
        room: Room,
    },
    Big {
        kind: big::Kind,
        lines: usize,
    },
    Natives {
        lines: usize,
    },
    Several(Vec<Made>),
}

fn main() -> ExitCode {
    let arguments: Vec<String> = std::env::args().skip(1).collect();
    let arguments: Vec<&str> = arguments.iter().map(String::as_str).collect();
    let wish = match arguments[..] {
        ["--big", "natives", lines] => natives_wish(lines),
        ["--big", kind, lines] => big_wish(kind, lines),
        ["--walk"] => Some(Wish::Several(walk())),
        ["--chosen", seed] => seed.parse().ok().map(chosen).map(Wish::Several),
        _ => made_wish(&arguments),
    };
    let Some(wish) = wish else {
        usage();
        return ExitCode::from(2);
    };
    match print(wish) {
        Ok(()) => ExitCode::SUCCESS,
        Err(error) => {
            eprintln!("traces: {error}");
            ExitCode::FAILURE
        }
    }
}

fn natives_wish(lines: &str) -> Option<Wish> {
    let lines = lines.parse().ok()?;
    Some(Wish::Natives { lines })
}

fn big_wish(kind: &str, lines: &str) -> Option<Wish> {
    let lines = lines.parse().ok()?;
    let kind = big::kind(kind)?;
    (1..=MOST_LINES as usize)
        .contains(&lines)
        .then_some(Wish::Big { kind, lines })
}

fn made_wish(arguments: &[&str]) -> Option<Wish> {
    let (mut seed, mut named, mut lines) = (1, None, 100);
    let mut room = LENT;
    let mut rest = arguments;
    loop {
        rest = match *rest {
            ["--seed", number, ref after @ ..] => {
                seed = number.parse().ok()?;
                after
            }
            ["--profile", name, ref after @ ..] => {
                named = Some(profile(name)?);
                after
            }
            ["--lines", number, ref after @ ..] => {
                lines = number.parse().ok()?;
                after
            }
            ["--rooms", references, pins, identities, ref after @ ..] => {
                room = Room::of(references, pins, identities)?;
                after
            }
            [] => break,
            _ => return None,
        }
    }
    named.map(|profile| Wish::Made {
        profile,
        seed,
        lines,
        room,
    })
}

fn print(wish: Wish) -> io::Result<()> {
    let mut output = BufWriter::with_capacity(1 << 16, io::stdout().lock());
    match wish {
        Wish::Made {
            profile,
            seed,
            lines,
            room,
        } => output.write_all(&make(profile, seed, lines, room))?,
        Wish::Big { kind, lines } => big(&kind, lines, &mut output)?,
        Wish::Natives { lines } => natives(lines, &mut output)?,
        Wish::Several(traces) => {
            for made in traces {
                let report = report_and_leaks(&made.trace, made.room);
                let (bytes, report_bytes) = (made.trace.len(), report.len());
                let room = made.room;
                writeln!(output, "{room} {bytes} {report_bytes} {}", made.name)?;
                output.write_all(&made.trace)?;
                output.write_all(&report)?;
            }
        }
    }
    output.flush()
}

fn usage() {
    eprintln!(
        "usage: traces --profile NAME [--seed S] [--lines N] [--rooms REFERENCE_ROWS PIN_ROWS IDENTITIES]"
    );
    eprintln!("       traces --big KIND N, at most {MOST_LINES} lines, accepted to the last");
    eprintln!("       traces --big natives N, any number of lines, without a Z");
    eprintln!("       traces --walk, the walk over all functions and bytes");
    eprintln!("       traces --chosen S, short ones that show much");
    let profiles = PROFILES.iter().chain(&DENSE);
    let profiles: Vec<&str> = profiles.map(|profile| profile.name).collect();
    eprintln!("profiles: {}", profiles.join(" "));
    let kinds: Vec<&str> = big::KINDS.iter().map(|kind| kind.name).collect();
    eprintln!("kinds: {} alive-N", kinds.join(" "));
}
