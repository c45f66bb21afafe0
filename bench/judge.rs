//! Holds the proved step, the proved loop and the indexed judge to the plain judge on the given traces, then times all four over the rows that their kind takes, or over so many.
//!
//! The loop is handed all lines that are timed in one call, the others are handed them one by one, in turns. All read them in the same memory. That the loop finds
//! where a line ends, fills its guides first and writes its findings as bytes is counted as its own; the others get each line cut off, and give findings as numbers.

mod clock;
#[allow(dead_code)] // whole traces and leak lists are not timed here
mod exported;

use clock::{median, time};
use plain::big::kind;
use plain::judge::Judge;
use plain::lent::lookup::Lookup;
use plain::lent::piece::{END, FAR};
use plain::lent::reply::{reply, MOST_NUMBERS};
use plain::lent::slices::Slices;
use plain::limits::{Number, Word};
use plain::room::{Room, LENT};
use std::collections::BTreeMap;
use std::fmt::{self, Display, Formatter, Write};
use std::hint::black_box;
use std::path::Path;
use std::process::ExitCode;

/// The judges that are handed single lines take turns after so many.
const TURN: usize = 10_000;
/// The bytes that the loop is lent for its findings: some 40,000 of them.
const OUT: usize = 1 << 20;

/// The judges that are timed, each with so much room.
const JUDGES: [(&str, fn(Room) -> Box<dyn Timed>); 4] = [
    ("step", |room| Box::new(Step::new(room))),
    ("loop", |room| Box::new(Loop::new(room))),
    ("plain", |room| Box::new(Judge::new(room))),
    ("indexed", |room| Box::new(Judge::indexed(room))),
];
const STEP: usize = 0;
const LOOP: usize = 1;
/// The judge that the others are held to.
const PLAIN: usize = 2;
const INDEXED: usize = 3;
/// Whose time is divided by whose.
const RATIOS: [(usize, usize); 3] = [(STEP, PLAIN), (LOOP, PLAIN), (LOOP, INDEXED)];

/// Traces that differ in what their calls are handed alone: whose time is divided by whose.
const TWINS: [(&str, &str); 4] = [
    ("identities", "handles"),
    ("scattered", "handles"),
    ("identities", "bare"),
    ("scattered", "bare"),
];

const USAGE: &str = "usage: judge ROUNDS [--last LINES] [--rows REFERENCE_ROWS] TRACE..";

type Found = [Number; MOST_NUMBERS];

struct Wish<'a> {
    rounds: usize,
    /// The lines at the end of each trace that are timed, if not all.
    last: Option<usize>,
    /// The reference rows that are lent, if not those that the trace's kind takes.
    rows: Option<usize>,
    files: &'a [String],
}

fn main() -> ExitCode {
    let arguments: Vec<String> = std::env::args().skip(1).collect();
    let Some(wish) = wish(&arguments) else {
        eprintln!("{USAGE}");
        return ExitCode::from(2);
    };
    println!("in one process, processor time in ns a line, with the loop's filling of its guides");
    print_head();
    let mut measured = BTreeMap::new();
    for file in wish.files {
        match measure(file, &wish) {
            Ok((name, times)) => measured.insert(name, times),
            Err(error) => {
                eprintln!("judge: {file}: {error}");
                return ExitCode::FAILURE;
            }
        };
    }
    print_twins(&measured);
    ExitCode::SUCCESS
}

fn wish(arguments: &[String]) -> Option<Wish<'_>> {
    let (rounds, rest) = arguments.split_first()?;
    let (last, rest) = option("--last", rest)?;
    let (rows, files) = option("--rows", rest)?;
    let rounds = rounds.parse().ok().filter(|&rounds| rounds > 0)?;
    (!files.is_empty()).then_some(Wish {
        rounds,
        last,
        rows,
        files,
    })
}

/// The number behind this option where the arguments begin with it, and the others.
fn option<'a>(name: &str, arguments: &'a [String]) -> Option<(Option<usize>, &'a [String])> {
    match arguments {
        [option, number, others @ ..] if option == name => {
            Some((Some(number.parse().ok()?), others))
        }
        others => Some((None, others)),
    }
}

fn print_head() {
    print!(
        "{:12} {:>6} {:>8} {:>8}",
        "trace", "rows", "lines", "findings"
    );
    for (name, _) in JUDGES {
        print!(" {name:>9}");
    }
    for (one, other) in RATIOS {
        print!(" {:>13}", format!("{}/{}", JUDGES[one].0, JUDGES[other].0));
    }
    println!();
}

/// The time of each judge on a trace divided by its time on the other, where both are measured.
fn print_twins(measured: &BTreeMap<String, Vec<f64>>) {
    for (one, other) in TWINS {
        if let (Some(times), Some(others)) = (measured.get(one), measured.get(other)) {
            print!("{:37}", format!("{one}/{other}"));
            for (time, other) in times.iter().zip(others) {
                print!(" {:9.2}", time / other);
            }
            println!();
        }
    }
}

/// The name of the trace, and the times that it takes the judges.
fn measure(file: &str, wish: &Wish) -> Result<(String, Vec<f64>), String> {
    let trace = std::fs::read(file).map_err(|error| error.to_string())?;
    let each: Vec<&[u8]> = trace.split_inclusive(|&byte| byte == b'\n').collect();
    let lines = Lines {
        piece: &trace,
        each: &each,
    };
    let last = wish.last.unwrap_or(each.len()).min(each.len());
    let (before, timed) = lines.split_at(each.len() - last);
    let name = Path::new(file).file_stem().unwrap_or_default();
    let name = name.to_string_lossy();
    let mut room = kind(&name).map_or(LENT, |kind| kind.room);
    room.references = wish.rows.unwrap_or(room.references);

    let mut judges: Vec<_> = JUDGES.iter().map(|(_, judge)| judge(room)).collect();
    hold(&mut judges, before)?;
    let start: Vec<_> = judges.iter().map(|judge| judge.copy()).collect();
    let findings = hold(&mut judges, timed)?;
    let times = times(&start, timed, wish.rounds);

    let rows = room.references;
    print!("{name:12} {rows:6} {last:8} {findings:8}");
    for time in &times {
        print!(" {time:9.1}");
    }
    for (one, other) in RATIOS {
        print!(" {:13.2}", times[one] / times[other]);
    }
    println!();
    Ok((name.into_owned(), times))
}

/// All judges on all lines, and what they leave: how many findings, or where one differs from the plain judge or refuses a line.
fn hold(judges: &mut [Box<dyn Timed>], lines: Lines) -> Result<usize, String> {
    let judged: Vec<_> = judges.iter_mut().map(|judge| judge.judge(lines)).collect();
    let plain = &judged[PLAIN];
    for (index, (name, _)) in JUDGES.iter().enumerate() {
        let given = &judged[index];
        if given != plain {
            let at = given.report.lines().zip(plain.report.lines());
            let at = at.take_while(|(line, wanted)| line == wanted).count();
            let [line, wanted] = [given, plain].map(|judged| judged.report.lines().nth(at));
            return Err(format!(
                "{name} {given}, plain {plain}; finding {at} is {line:?}, not {wanted:?}"
            ));
        }
        if judges[index].slices() != judges[PLAIN].slices() {
            return Err(format!("{name} leaves other tables than plain"));
        }
    }
    if plain.reply != END {
        return Err(format!("a line is refused: plain {plain}"));
    }
    Ok(plain.findings)
}

/// The nanoseconds a line takes each judge as it stands at the start, medians of so many rounds over all lines.
fn times(start: &[Box<dyn Timed>], lines: Lines, rounds: usize) -> Vec<f64> {
    let mut taken = vec![Vec::new(); start.len()];
    for _ in 0..rounds {
        let mut judges: Vec<_> = start.iter().map(|judge| judge.copy()).collect();
        let mut sums = vec![0.0; start.len()];
        let mut rests = vec![lines; start.len()];
        while rests.iter().any(|rest| !rest.each.is_empty()) {
            for (index, rest) in rests.iter_mut().enumerate() {
                if !rest.each.is_empty() {
                    let (turn, behind) = rest.split_at(judges[index].turn().min(rest.each.len()));
                    sums[index] += time(|| judges[index].take(turn));
                    *rest = behind;
                }
            }
        }
        for (taken, sum) in taken.iter_mut().zip(sums) {
            taken.push(sum / lines.each.len() as f64);
        }
    }
    taken.into_iter().map(median).collect()
}

/// Lines one behind another, as a piece and each by itself.
#[derive(Clone, Copy)]
struct Lines<'a> {
    piece: &'a [u8],
    each: &'a [&'a [u8]],
}

impl<'a> Lines<'a> {
    fn split_at(self, count: usize) -> (Lines<'a>, Lines<'a>) {
        let (each, behind) = self.each.split_at(count);
        let bytes = each.iter().map(|line| line.len()).sum();
        let (piece, rest) = self.piece.split_at(bytes);
        let behind = Lines {
            piece: rest,
            each: behind,
        };
        (Lines { piece, each }, behind)
    }
}

/// What a judge says of lines: the reply as to a piece at the end of its trace, how many bytes were accepted, how many findings there are, and these as lines of the report.
#[derive(PartialEq)]
struct Judged {
    reply: i32,
    taken: usize,
    findings: usize,
    report: String,
}

impl Display for Judged {
    fn fmt(&self, out: &mut Formatter) -> fmt::Result {
        let (reply, taken, findings) = (self.reply, self.taken, self.findings);
        write!(
            out,
            "replies {reply} behind {taken} bytes, {findings} findings"
        )
    }
}

/// A judge and its tables.
trait Timed {
    /// Judges lines up to the first that is refused.
    fn judge(&mut self, lines: Lines) -> Judged;

    /// How many lines it takes in a turn.
    fn turn(&self) -> usize;

    /// Judges the lines of a turn.
    fn take(&mut self, lines: Lines);

    fn slices(&self) -> &Slices;

    fn copy(&self) -> Box<dyn Timed>;
}

/// What is said of lines that are handed over one by one, by the replies to them and the numbers of their findings.
fn one_by_one(lines: Lines, mut reply: impl FnMut(&[u8], &mut Found) -> i32) -> Judged {
    let mut judged = Judged {
        reply: END,
        taken: 0,
        findings: 0,
        report: String::new(),
    };
    for line in lines.each {
        let mut found = [0; MOST_NUMBERS];
        let reply = reply(line, &mut found);
        if reply < 0 {
            judged.reply = reply;
            break;
        }
        judged.taken += line.len();
        judged.findings += reply as usize;
        let (findings, _) = found.as_chunks();
        for [line, rule, place, thing] in &findings[..reply as usize] {
            let _ = writeln!(judged.report, "{line}\t{rule}\t{place}\t{thing}");
        }
    }
    judged
}

impl<L: Lookup + Clone + 'static> Timed for Judge<L> {
    fn judge(&mut self, lines: Lines) -> Judged {
        one_by_one(lines, |line, found| reply(|| self.step(line), found))
    }

    fn turn(&self) -> usize {
        TURN
    }

    fn take(&mut self, lines: Lines) {
        for line in lines.each {
            let _ = black_box(self.step(black_box(line)));
        }
    }

    fn slices(&self) -> &Slices {
        self.slices()
    }

    fn copy(&self) -> Box<dyn Timed> {
        Box::new(self.clone())
    }
}

/// Tables that the proved judge has started.
fn started(room: Room) -> Slices {
    let mut slices = Slices::new(room);
    exported::start(slices.lend());
    slices
}

/// The proved step.
#[derive(Clone)]
struct Step {
    slices: Slices,
    found: Found,
}

impl Step {
    fn new(room: Room) -> Step {
        Step {
            slices: started(room),
            found: [0; MOST_NUMBERS],
        }
    }
}

impl Timed for Step {
    fn judge(&mut self, lines: Lines) -> Judged {
        one_by_one(lines, |line, found| {
            exported::step(line, self.slices.lend(), found)
        })
    }

    fn turn(&self) -> usize {
        TURN
    }

    fn take(&mut self, lines: Lines) {
        for line in lines.each {
            black_box(exported::step(
                black_box(line),
                self.slices.lend(),
                &mut self.found,
            ));
            black_box(&self.found);
        }
    }

    fn slices(&self) -> &Slices {
        &self.slices
    }

    fn copy(&self) -> Box<dyn Timed> {
        Box::new(self.clone())
    }
}

/// The proved loop, with what it is lent beside the tables.
#[derive(Clone)]
struct Loop {
    slices: Slices,
    out: Vec<u8>,
    far: [Word; FAR],
}

impl Loop {
    fn new(room: Room) -> Loop {
        Loop {
            slices: started(room),
            out: vec![0; OUT],
            far: [0; FAR],
        }
    }

    /// One call, as if the trace ended behind the piece.
    fn call(&mut self, piece: &[u8]) -> i32 {
        exported::piece(piece, 1, self.slices.lend(), &mut self.out, &mut self.far)
    }
}

impl Timed for Loop {
    fn judge(&mut self, lines: Lines) -> Judged {
        let reply = self.call(lines.piece);
        let [taken, put, findings] = self.far.map(|number| number as usize);
        Judged {
            reply,
            taken,
            findings,
            report: String::from_utf8_lossy(&self.out[..put]).into_owned(),
        }
    }

    /// All that there are.
    fn turn(&self) -> usize {
        usize::MAX
    }

    fn take(&mut self, lines: Lines) {
        black_box(self.call(black_box(lines.piece)));
        black_box((&self.out, &self.far));
    }

    fn slices(&self) -> &Slices {
        &self.slices
    }

    fn copy(&self) -> Box<dyn Timed> {
        Box::new(self.clone())
    }
}
