//! What the tests that link proved libraries share: their options, slices with guards, and how a line is told.

use plain::random::Random;
use std::fmt::{Debug, Display};
use std::ops::{Deref, DerefMut, Range};
use std::process::ExitCode;
use std::time::{Duration, Instant};

/// How many cases, from which seed.
pub struct Wish {
    pub seed: u64,
    pub cases: u64,
    pub time: Duration,
}

impl Wish {
    /// Without a number of cases as many as 20 seconds give.
    pub fn of(arguments: &[String]) -> Option<Wish> {
        let (mut seed, mut cases, mut seconds) = (1, None, None);
        for option in arguments.chunks(2) {
            let [name, value] = option else {
                return None;
            };
            let number = value.parse().ok()?;
            match name.as_str() {
                "--seed" => seed = number,
                "--cases" => cases = Some(number),
                "--seconds" => seconds = Some(number),
                _ => return None,
            }
        }
        let time = match (cases, seconds) {
            (_, Some(seconds)) => Duration::from_secs(seconds),
            (Some(_), None) => Duration::MAX,
            (None, None) => Duration::from_secs(20),
        };
        Some(Wish {
            seed,
            cases: cases.unwrap_or(u64::MAX),
            time,
        })
    }

    /// Tries cases, each by its seed, and gives their number; where one differs, how to try it alone is told, and what differs.
    pub fn tried(
        &self,
        name: &str,
        mut compare: impl FnMut(u64) -> Result<(), String>,
    ) -> Option<u64> {
        let begun = Instant::now();
        let mut cases = 0;
        while cases < self.cases && begun.elapsed() < self.time {
            let seed = self.seed.wrapping_add(cases);
            if let Err(difference) = compare(seed) {
                println!("a difference: {name} --seed {seed} --cases 1");
                println!("{difference}");
                return None;
            }
            cases += 1;
        }
        Some(cases)
    }
}

/// Tells what came up in so many cases, and whether it is all that can.
pub fn ended(name: &str, cases: u64, seen: &impl Display, is_whole: bool, agree: &str) -> ExitCode {
    println!("{name}: {cases} cases; {seen}");
    if !is_whole {
        println!("{name}: something of this never came up, so nothing is said");
        return ExitCode::FAILURE;
    }
    println!("{name}: {agree} agree");
    ExitCode::SUCCESS
}

/// A line as it is told, cut if it is very long.
pub fn shown(line: &[u8]) -> String {
    const MOST: usize = 200;
    let start = String::from_utf8_lossy(&line[..line.len().min(MOST)]);
    format!("{start:?} ({} bytes)", line.len())
}

/// A slice to lend, with so many numbers before and after it that are nobody's: small ones, which could be taken for the slice's own.
#[derive(Clone)]
pub struct Guarded<T, const GUARD: usize>(Vec<T>);

impl<T, const GUARD: usize> Guarded<T, GUARD> {
    fn place(&self) -> Range<usize> {
        GUARD..self.0.len() - GUARD
    }
}

impl<T, const GUARD: usize> Deref for Guarded<T, GUARD> {
    type Target = [T];

    fn deref(&self) -> &[T] {
        &self.0[self.place()]
    }
}

impl<T, const GUARD: usize> DerefMut for Guarded<T, GUARD> {
    fn deref_mut(&mut self) -> &mut [T] {
        let place = self.place();
        &mut self.0[place]
    }
}

impl<T: Copy + PartialEq + Debug + From<u8>, const GUARD: usize> Guarded<T, GUARD> {
    pub fn new(lent: Vec<T>, random: &mut Random) -> Guarded<T, GUARD> {
        let mut guard = || -> Vec<T> {
            let kind = random.pick(&[1, 2, 20, 256]);
            let number = |_| T::from(random.below(kind) as u8);
            (0..GUARD).map(number).collect()
        };
        Guarded([guard(), lent, guard()].concat())
    }

    /// The first number that is not the wanted one, the guards among them.
    pub fn compare(&self, name: &str, wanted: &Guarded<T, GUARD>) -> Result<(), String> {
        if self.0 == wanted.0 {
            return Ok(());
        }
        let numbers = self.0.iter().zip(&wanted.0);
        let at = numbers
            .take_while(|(number, wanted)| number == wanted)
            .count();
        let (number, wanted) = (self.0[at], wanted.0[at]);
        let length = self.len();
        let index = at as isize - GUARD as isize;
        Err(format!(
            "{name}[{index}], of length {length}, is {number:?}, not {wanted:?}"
        ))
    }
}
