//! Holds the proved reader and the proved writers for C to the plain ones on single lines: each reply, every number and byte of what is lent and those around it; what is read is written again as it was, and what is written is read as it was.

mod common;
#[path = "../bench/recorded.rs"]
mod recorded;

use common::{ended, shown, Wish};
use plain::called::{self, Handed};
use plain::damage::{damage_bytes, damage_fields};
use plain::facts::FUNCTIONS;
use plain::form::{FORMS, MOST_NUMBERS};
use plain::limits::{Handle, Number, MOST_BYTES, MOST_HANDLES};
use plain::make::{make, Profile, DENSE, PROFILES};
use plain::random::Random;
use plain::refusal::{Refusal, MALFORMED, NO_LINE, NO_ROOM, OUT_OF_RANGE};
use plain::room::Room;
use plain::single;
use std::collections::{BTreeMap, BTreeSet};
use std::fmt::{self, Display, Formatter};
use std::hint::black_box;
use std::process::ExitCode;

const USAGE: &str = "usage: lines [--seed S] [--cases N] [--seconds T]";

/// The numbers before and after each slice, which are nobody's.
const GUARD: usize = 12;
/// The bytes of a line and its LF, which are the most that a writer needs.
const WHOLE: usize = MOST_BYTES + 1;
/// Of each case: the lines of a trace that are damaged, the lines of any sort, and how often a writer is called.
const DAMAGED: usize = 100;
const LINES: usize = 400;
const WRITES: usize = 200;
/// The room that a trace is made for: a little, as lines are all that is asked of it.
const ROOM: Room = Room {
    references: 64,
    pins: 8,
    identities: 64,
};

type Guarded<T> = common::Guarded<T, GUARD>;

fn main() -> ExitCode {
    let arguments: Vec<String> = std::env::args().skip(1).collect();
    let Some(wish) = Wish::of(&arguments) else {
        eprintln!("{USAGE}");
        return ExitCode::from(2);
    };
    let mut seen = Seen::new();
    if let Err(difference) = compare_chosen(wish.seed, &mut seen) {
        println!("a difference: lines --seed {} --cases 0", wish.seed);
        println!("{difference}");
        return ExitCode::FAILURE;
    }
    let Some(cases) = wish.tried("lines", |seed| compare(seed, &mut seen)) else {
        return ExitCode::FAILURE;
    };
    ended(
        "lines",
        cases,
        &seen,
        seen.is_whole(),
        "the proved reader and writers and the plain ones",
    )
}

/// What is tried once, whatever the seed; only the numbers around it are the seed's.
fn compare_chosen(seed: u64, seen: &mut Seen) -> Result<(), String> {
    let mut random = Random::new(seed);
    for line in single::chosen::lines() {
        compare_line(&line, seen, &mut random)?;
    }
    for handed in single::chosen::handed() {
        compare_handed(&handed, seen, &mut random)?;
    }
    Ok(())
}

/// The lines of a made trace, some of them damaged, lines of any sort, and calls of writers.
fn compare(seed: u64, seen: &mut Seen) -> Result<(), String> {
    let mut random = Random::new(seed);
    let profiles: Vec<&Profile> = PROFILES.iter().chain(&DENSE).collect();
    let profile = profiles[seed as usize % profiles.len()];
    let (fewest, most) = profile.usual_lines;
    let lines = random.between(fewest, most) as usize;
    let trace = make(profile, random.number(), lines, ROOM);
    let lines: Vec<&[u8]> = trace.split_inclusive(|&byte| byte == b'\n').collect();
    for line in &lines {
        compare_line(line, seen, &mut random)?;
    }
    for _ in 0..DAMAGED.min(lines.len()) {
        let mut damaged = vec![random.pick(&lines).to_vec()];
        if random.percent(50) {
            damage_fields(&mut damaged, &mut random);
        } else {
            damage_bytes(&mut damaged, &mut random);
        }
        for line in &damaged {
            compare_line(line, seen, &mut random)?;
        }
    }
    for _ in 0..LINES {
        let line = single::line(&mut random);
        compare_line(&line, seen, &mut random)?;
    }
    for _ in 0..WRITES {
        let handed = single::handed(&mut random);
        compare_handed(&handed, seen, &mut random)?;
    }
    Ok(())
}

fn compare_line(line: &[u8], seen: &mut Seen, random: &mut Random) -> Result<(), String> {
    let same = read_and_write(line, seen, random);
    same.map_err(|what| format!("line {}: {what}", shown(line)))
}

fn compare_handed(handed: &Handed, seen: &mut Seen, random: &mut Random) -> Result<(), String> {
    let same = write_and_read(handed, seen, random);
    same.map_err(|what| format!("{handed:?}: {what}"))
}

/// Both read the line; where it is one, its numbers are written again: into a buffer as long, a longer one, and one that is a byte short.
fn read_and_write(line: &[u8], seen: &mut Seen, random: &mut Random) -> Result<(), String> {
    let Some(handed) = compare_reads(line, seen, random)? else {
        return Ok(());
    };
    let longer = line.len() + 1 + random.below(WHOLE);
    for length in [line.len(), longer, line.len() - 1] {
        let written = compare_writes(&handed, length, seen, random)?;
        let wanted = (length >= line.len()).then_some(line);
        if written.as_deref() != wanted {
            let written = written.as_deref().map(shown);
            return Err(format!(
                "it is read as {handed:?}, of which a buffer of {length} bytes gets {written:?}"
            ));
        }
    }
    Ok(())
}

/// Both write what they are handed; where that is a line, it is read again, and written into shorter buffers, the shortest of them NULL.
fn write_and_read(handed: &Handed, seen: &mut Seen, random: &mut Random) -> Result<(), String> {
    let lengths = match compare_writes(handed, WHOLE, seen, random)? {
        Some(line) => {
            let read = compare_reads(&line, seen, random)?;
            if read != Some(*handed) {
                return Err(format!("{} is read as {read:?}", shown(&line)));
            }
            [line.len(), line.len() - 1, random.below(line.len())]
        }
        None => [0, 1, random.below(2 * WHOLE)],
    };
    for length in lengths {
        compare_writes(handed, length, seen, random)?;
    }
    let (given, wanted) = (recorded::write_null(handed), handed.write(&mut []));
    if given != wanted {
        return Err(format!("the reply for NULL is {given}, not {wanted}"));
    }
    Ok(())
}

/// What the line's writer is handed, if it is a line; the proved reader's reply and numbers are held to the plain one's, and what it leaves to what was there.
fn compare_reads(
    line: &[u8],
    seen: &mut Seen,
    random: &mut Random,
) -> Result<Option<Handed>, String> {
    let wanted_line: Guarded<u8> = Guarded::new(line.to_vec(), random);
    let line = wanted_line.clone();
    let any = |_| random.number();
    let any_numbers = (0..MOST_NUMBERS).map(any).collect();
    let mut wanted_numbers = Guarded::new(any_numbers, random);
    let mut wanted_count = Guarded::new(vec![random.number() as u32], random);
    let (mut numbers, mut count) = (wanted_numbers.clone(), wanted_count.clone());
    let wanted = called::read(&line, ten(&mut wanted_numbers), &mut wanted_count[0]);
    let mut given = recorded::read(&line, ten(&mut numbers), &mut count[0]);
    if given == wanted && line.is_empty() {
        given = recorded::read_null(ten(&mut numbers), &mut count[0]);
    }
    if given != wanted {
        return Err(format!("the reply is {given}, not {wanted}"));
    }
    numbers.compare("numbers", &wanted_numbers)?;
    count.compare("count", &wanted_count)?;
    line.compare("line", &wanted_line)?;
    let letter = u8::try_from(wanted).ok();
    let read = letter.map(|letter| {
        let numbers = &numbers[..count[0] as usize];
        Handed::of(letter, numbers).expect("a line that was read")
    });
    seen.add_read(wanted, read.as_ref());
    Ok(read)
}

fn ten(numbers: &mut Guarded<Number>) -> &mut [Number; MOST_NUMBERS] {
    (&mut **numbers).try_into().expect("ten numbers")
}

/// The bytes of the line, if it is written into a buffer of that length; the proved writer's reply and the whole buffer are held to the plain one's.
fn compare_writes(
    handed: &Handed,
    length: usize,
    seen: &mut Seen,
    random: &mut Random,
) -> Result<Option<Vec<u8>>, String> {
    let any = (0..length).map(|_| random.number() as u8).collect();
    let mut wanted_buffer: Guarded<u8> = Guarded::new(any, random);
    let mut buffer = wanted_buffer.clone();
    let wanted = handed.write(&mut wanted_buffer);
    let lent = *handed;
    let given = recorded::write(&lent, &mut buffer);
    if given != wanted {
        return Err(format!(
            "the reply for a buffer of {length} bytes is {given}, not {wanted}"
        ));
    }
    buffer.compare("buffer", &wanted_buffer)?;
    if black_box(&lent) != handed {
        return Err(format!("it is {lent:?} after the call"));
    }
    seen.add_write(handed.letter(), wanted);
    let written = usize::try_from(wanted).ok();
    Ok(written.map(|length| buffer[..length].to_vec()))
}

/// The env, handles, identities and buffers that a writer is handed.
fn values(handed: &Handed) -> Vec<Handle> {
    match *handed {
        Handed::Enter { env, handles, .. } => [&[env], &handles[..]].concat(),
        Handed::Call { env, places, .. } => [&[env], &places[..]].concat(),
        Handed::Leave { result, .. } | Handed::Return { result, .. } => vec![result],
        Handed::Attach { env, .. } => vec![env],
        Handed::State { handle, .. } => vec![handle],
        Handed::Identify { identity, .. } => vec![identity],
        Handed::Detach { .. } | Handed::Declare { .. } | Handed::End => Vec::new(),
    }
}

/// What came up; what can come up and did not stands there with 0.
struct Seen {
    counts: BTreeMap<What, u64>,
    /// The letters and functions of the lines that were read.
    functions: BTreeSet<(u8, u32)>,
}

#[derive(Clone, Copy, PartialEq, Eq, PartialOrd, Ord)]
enum What {
    Read(u8),
    /// A reply of the reader.
    NotRead(i32),
    /// A letter with a number of more than 32 bits that was read.
    Wide(u8),
    /// An N that was read, with so many handles.
    Handles(u32),
    /// A C or an R that was read, its capacity or status below zero.
    BelowZero(u8),
    Written(u8),
    /// A letter and a reply of its writer.
    NotWritten(u8, i32),
}

impl Seen {
    fn new() -> Seen {
        let mut counts = BTreeMap::new();
        let mut can_come_up = |what| counts.insert(what, 0);
        let reply = |refusal: Refusal| -i32::from(refusal);
        for form in &FORMS {
            can_come_up(What::Read(form.letter));
            can_come_up(What::Written(form.letter));
            can_come_up(What::NotWritten(form.letter, reply(NO_ROOM)));
            if form.most() > 0 {
                can_come_up(What::NotWritten(form.letter, reply(OUT_OF_RANGE)));
            }
        }
        for refusal in [NO_LINE, MALFORMED, OUT_OF_RANGE] {
            can_come_up(What::NotRead(reply(refusal)));
        }
        for count in 0..=MOST_HANDLES as u32 {
            can_come_up(What::Handles(count));
        }
        for letter in *b"NXCRAOM" {
            can_come_up(What::Wide(letter));
        }
        can_come_up(What::BelowZero(b'C'));
        can_come_up(What::BelowZero(b'R'));
        Seen {
            counts,
            functions: BTreeSet::new(),
        }
    }

    fn add(&mut self, what: What) {
        *self.counts.entry(what).or_default() += 1;
    }

    fn add_read(&mut self, reply: i32, read: Option<&Handed>) {
        let Some(handed) = read else {
            return self.add(What::NotRead(reply));
        };
        let letter = handed.letter();
        self.add(What::Read(letter));
        let is_wide = |&value: &Handle| value > u32::MAX.into();
        if values(handed).iter().any(is_wide) {
            self.add(What::Wide(letter));
        }
        match *handed {
            Handed::Enter { count, .. } => self.add(What::Handles(count)),
            Handed::Call {
                function,
                capacity: signed,
                ..
            }
            | Handed::Return {
                function,
                status: signed,
                ..
            } => {
                self.functions.insert((letter, function));
                if signed < 0 {
                    self.add(What::BelowZero(letter));
                }
            }
            Handed::Leave { .. }
            | Handed::Attach { .. }
            | Handed::Detach { .. }
            | Handed::Declare { .. }
            | Handed::State { .. }
            | Handed::Identify { .. }
            | Handed::End => {}
        }
    }

    fn add_write(&mut self, letter: u8, reply: i32) {
        self.add(match reply {
            1.. => What::Written(letter),
            _ => What::NotWritten(letter, reply),
        });
    }

    fn is_whole(&self) -> bool {
        self.counts.values().all(|&count| count > 0) && self.functions.len() == 2 * FUNCTIONS
    }
}

impl Display for Seen {
    fn fmt(&self, out: &mut Formatter) -> fmt::Result {
        let mut last = "";
        for (what, count) in &self.counts {
            let (group, name) = match *what {
                What::Read(letter) => ("read", char::from(letter).to_string()),
                What::NotRead(reply) => ("not read", reply.to_string()),
                What::Wide(letter) => ("of more than 32 bits", char::from(letter).to_string()),
                What::Handles(count) => ("N with handles", count.to_string()),
                What::BelowZero(letter) => ("below zero", char::from(letter).to_string()),
                What::Written(letter) => ("written", char::from(letter).to_string()),
                What::NotWritten(letter, reply) => {
                    ("not written", format!("{} {reply}", char::from(letter)))
                }
            };
            match group == last {
                true => write!(out, ", {name}: {count}")?,
                false if last.is_empty() => write!(out, "{group} {name}: {count}")?,
                false => write!(out, "; {group} {name}: {count}")?,
            }
            last = group;
        }
        write!(out, "; functions of C and R: {}", self.functions.len())
    }
}
