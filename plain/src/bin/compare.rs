//! Compares another judge program with the plain judge, on made traces or on the walk over all functions and bytes, and shrinks the
//! first trace they differ on. With `--leaks` the other judge is run with `--leaks` too, and what both list is compared.

use plain::coverage::Coverage;
use plain::make::{make, profile, Made, Profile, PROFILES};
use plain::random::Random;
use plain::report::{report, report_and_leaks};
use plain::room::LENT;
use plain::shrink::shrink;
use plain::walk::walk;
use std::io::{self, Read, Write};
use std::process::{Child, Command, ExitCode, Stdio};
use std::sync::mpsc;
use std::thread;
use std::time::{Duration, Instant};

const USAGE: &str = "usage: compare [--leaks] [--seed S] [--count N] [--seconds T] -- CMD ARG..
       compare [--leaks] --walk -- CMD ARG..";

/// The longest one run of the other judge may take.
const RUN_TIME: Duration = Duration::from_secs(60);
/// The longest the shrinking of one trace may take.
const SHRINK_TIME: Duration = Duration::from_secs(120);

struct Wish {
    traces: Box<dyn Iterator<Item = Made>>,
    time: Duration,
    other: Other,
}

/// The other judge, and whether leaks are asked for.
struct Other {
    command: Vec<String>,
    leaks: bool,
}

fn main() -> ExitCode {
    let arguments: Vec<String> = std::env::args().skip(1).collect();
    let Some(wish) = wish(&arguments) else {
        eprintln!("{USAGE}");
        return ExitCode::from(2);
    };
    match compare(wish) {
        Ok(true) => ExitCode::SUCCESS,
        Ok(false) => ExitCode::FAILURE,
        Err(error) => {
            eprintln!("compare: {error}");
            ExitCode::from(2)
        }
    }
}

fn wish(arguments: &[String]) -> Option<Wish> {
    let split = arguments.iter().position(|argument| argument == "--")?;
    let (options, mut command) = (&arguments[..split], arguments[split + 1..].to_vec());
    if command.is_empty() {
        return None;
    }
    let (leaks, options) = match options {
        [first, rest @ ..] if first == "--leaks" => (true, rest),
        _ => (false, options),
    };
    command.extend(leaks.then(|| "--leaks".to_string()));
    let other = Other { command, leaks };
    if options == ["--walk"] {
        return Some(Wish {
            traces: Box::new(walk().into_iter()),
            time: Duration::MAX,
            other,
        });
    }
    let (mut seed, mut count, mut time) = (1_u64, None, Duration::MAX);
    for option in options.chunks(2) {
        let [name, value] = option else {
            return None;
        };
        match name.as_str() {
            "--seed" => seed = value.parse().ok()?,
            "--count" => count = Some(value.parse().ok()?),
            "--seconds" => time = Duration::from_secs(value.parse().ok()?),
            _ => return None,
        }
    }
    let unsaid = if time == Duration::MAX {
        1_000
    } else {
        u64::MAX
    };
    Some(Wish {
        traces: Box::new((0..count.unwrap_or(unsaid)).map(move |index| made(seed, index, leaks))),
        time,
        other,
    })
}

/// Compares trace after trace; whether all reports were equal.
fn compare(wish: Wish) -> io::Result<bool> {
    let start = Instant::now();
    let mut coverage = if wish.other.leaks {
        Coverage::of_traces_and_lists()
    } else {
        Coverage::of_traces()
    };
    let mut equal = true;
    let mut traces = 0;
    for made in wish.traces {
        if start.elapsed() >= wish.time {
            break;
        }
        traces += 1;
        let mut judge = coverage.add_trace(&made.trace, LENT);
        if wish.other.leaks {
            coverage.add_list(&judge.leaks());
        }
        if wish.other.differs(&made.trace)? {
            println!("a difference: {}", made.name);
            wish.other.tell(&made.trace)?;
            equal = false;
            break;
        }
    }
    println!("compared {traces} traces, {coverage}");
    Ok(equal)
}

fn made(seed: u64, index: u64, leaks: bool) -> Made {
    let profile = profile_of(index, leaks);
    let seed = seed.wrapping_add(index);
    let lines = lines_of(profile, seed);
    Made {
        name: format!(
            "traces --seed {seed} --profile {} --lines {lines}",
            profile.name
        ),
        room: LENT,
        trace: make(profile, seed, lines, LENT),
    }
}

/// Every second trace is a single line at an edge, as it costs little, or one rich in leaks; the others are of all profiles by turns.
fn profile_of(index: u64, leaks: bool) -> &'static Profile {
    if index % 2 == 1 {
        return profile(if leaks { "leaks" } else { "edges" }).expect("a profile");
    }
    &PROFILES[(index / 2 % PROFILES.len() as u64) as usize]
}

fn lines_of(profile: &Profile, seed: u64) -> usize {
    let (fewest, most) = profile.usual_lines;
    Random::new(!seed).between(fewest, most) as usize
}

impl Other {
    fn differs(&self, trace: &[u8]) -> io::Result<bool> {
        Ok(self.run(trace)? != self.wanted(trace))
    }

    /// What the plain judge prints.
    fn wanted(&self, trace: &[u8]) -> Vec<u8> {
        let print = if self.leaks { report_and_leaks } else { report };
        print(trace, LENT)
    }

    /// Shrinks the trace and tells it with both reports.
    fn tell(&self, trace: &[u8]) -> io::Result<()> {
        let start = Instant::now();
        let in_time = || start.elapsed() < SHRINK_TIME;
        let small = shrink(trace, |part| {
            in_time() && self.differs(part).unwrap_or(false)
        });
        println!("the smallest trace found:");
        print_bytes(&small)?;
        println!("the plain judge's report:");
        print_bytes(&self.wanted(&small))?;
        println!("the other report:");
        print_bytes(&self.run(&small)?)
    }

    /// What the command prints with the trace on its standard input.
    fn run(&self, trace: &[u8]) -> io::Result<Vec<u8>> {
        // That leaks are asked for without a Z is told for each such trace.
        let told = if self.leaks {
            Stdio::null()
        } else {
            Stdio::inherit()
        };
        let mut child = Command::new(&self.command[0])
            .args(&self.command[1..])
            .stdin(Stdio::piped())
            .stdout(Stdio::piped())
            .stderr(told)
            .spawn()?;
        let printed = exchange(&mut child, trace);
        child.kill()?;
        child.wait()?;
        printed
    }
}

fn print_bytes(bytes: &[u8]) -> io::Result<()> {
    let mut output = io::stdout().lock();
    output.write_all(bytes)?;
    if !bytes.ends_with(b"\n") {
        output.write_all(b"\n")?;
    }
    Ok(())
}

/// Feeds the child from one thread and reads it from another, so that neither waits for the other.
fn exchange(child: &mut Child, trace: &[u8]) -> io::Result<Vec<u8>> {
    let mut stdin = child.stdin.take().expect("a piped standard input");
    let mut stdout = child.stdout.take().expect("a piped standard output");
    let trace = trace.to_vec();
    thread::spawn(move || {
        // A judge that stops at a refusal leaves the rest unread.
        let _ = stdin.write_all(&trace);
    });
    let (sender, receiver) = mpsc::channel();
    thread::spawn(move || {
        let mut printed = Vec::new();
        let read = stdout.read_to_end(&mut printed);
        let _ = sender.send(read.map(|_| printed));
    });
    match receiver.recv_timeout(RUN_TIME) {
        Ok(printed) => printed,
        Err(_) => Ok(b"nothing, as it took too long".to_vec()),
    }
}
