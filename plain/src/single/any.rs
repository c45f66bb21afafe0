//! Lines and what writers are handed, from a seed, good and bad.

use crate::called::Handed;
use crate::damage::{add_digits, damage_bytes, damage_fields, odd_line, MALFORMED, NUMBERS};
use crate::edge::edge_line;
use crate::facts::*;
use crate::identity::{FIELD, METHOD};
use crate::limits::{
    Class, Field, Handle, Number, MOST_BYTES, MOST_CLASSES, MOST_HANDLES, THREADS,
};
use crate::random::Random;

/// What lines are put together of, which then may be numbers and lines.
const PIECES: [&str; 20] = [
    "\t", "\t", "\t0", "\t1", "\t5", "\t8", "\t16", "\t19", "\t232", "\t-", "0", "1", "7", "-",
    "\n", "\r", " ", "N", "Z", "x",
];
const BYTES: &[u8] = b"NXCRZKOADMnz\t\t\t\t\t0123456789--+ \n\r\0\xff";
const LETTERS: &[u8] = b"NXCRZKOADM";

/// A line that is good, damaged, at an edge, several in one, or any bytes.
pub fn line(random: &mut Random) -> Vec<u8> {
    match random.below(100) {
        0..15 => good_line(random),
        15..30 => edge_line(random),
        30..55 => spoilt_line(random),
        55..65 => {
            let mut lines = vec![good_line(random)];
            damage_bytes(&mut lines, random);
            lines.swap_remove(0)
        }
        65..75 => {
            let mut lines = vec![good_line(random)];
            damage_fields(&mut lines, random);
            lines.swap_remove(0)
        }
        75..78 => odd_line(random),
        78..80 => {
            let lines = 2 + random.below(40);
            (0..lines).flat_map(|_| good_line(random)).collect()
        }
        80..90 => {
            let length = random.below(14);
            let mut line = vec![random.pick(LETTERS)];
            for _ in 0..length {
                line.extend_from_slice(random.pick(&PIECES).as_bytes());
            }
            ended(line, random)
        }
        _ => {
            let most = random.pick(&[4, 8, 24, MOST_BYTES + 4]);
            let line = (0..random.below(most)).map(|_| random.pick(BYTES));
            ended(line.collect(), random)
        }
    }
}

/// What a writer takes, or as often what it mostly refuses.
pub fn handed(random: &mut Random) -> Handed {
    let mut handed = good(random);
    if random.percent(50) {
        spoil(&mut handed, random);
    }
    handed
}

/// With its LF, but for a few.
fn ended(mut line: Vec<u8>, random: &mut Random) -> Vec<u8> {
    if random.percent(95) {
        line.push(b'\n');
    }
    line
}

fn good_line(random: &mut Random) -> Vec<u8> {
    let mut buffer = [0; MOST_BYTES + 1];
    let length = good(random).write(&mut buffer);
    buffer[..length as usize].to_vec()
}

/// A good line, up to two of its numbers in another writing, or others.
fn spoilt_line(random: &mut Random) -> Vec<u8> {
    let line = String::from_utf8(good_line(random)).expect("a line that was written");
    let mut fields: Vec<String> = line.trim_end().split('\t').map(String::from).collect();
    if let [_, numbers @ ..] = &mut fields[..] {
        for _ in 0..random.below(3).min(numbers.len()) {
            let at = random.below(numbers.len());
            numbers[at] = other_writing(numbers[at].parse().unwrap_or(0), random);
        }
    }
    (fields.join("\t") + "\n").into_bytes()
}

/// What is no number, or another number, of which some would be the good one if they were cut to 32 or 64 bits.
fn other_writing(good: Field, random: &mut Random) -> String {
    let times: Field = random.between(1, 3).into();
    let sign = random.pick(&[1, -1]);
    match random.below(9) {
        0 => (good + sign * (times << 32)).to_string(),
        1 => (good + sign * (times << 64)).to_string(),
        2 => (-good).to_string(),
        3 => format!("{}{good}", random.pick(&["0", "-", "-0", "+", " ", "00"])),
        4 => format!("{good}{}", random.pick(&["0", "\t", "-", " ", "\r", "\n"])),
        5 => random.pick(&MALFORMED).to_string(),
        6 => random.pick(&NUMBERS).to_string(),
        7 => {
            let mut field = good.to_string().into_bytes();
            add_digits(&mut field, random);
            String::from_utf8(field).expect("digits")
        }
        _ => {
            let sign = random.pick(&["", "", "-"]);
            let most = random.pick(&[23, 70, MOST_BYTES]);
            let digits = 1 + random.below(most);
            let digit = |_| random.pick(b"0123456789") as char;
            sign.chars().chain((0..digits).map(digit)).collect()
        }
    }
}

/// What a writer takes.
fn good(random: &mut Random) -> Handed {
    let thread = random.between(1, THREADS);
    let env = number(random).max(1);
    let function = if random.percent(40) {
        random.pick(&[7, 19, 21, 26, 104, 165, 217, 218, 226])
    } else {
        random.between(FIRST_FUNCTION, LAST_FUNCTION)
    };
    let facts = known(function);
    match random.below(31) {
        0 => Handed::End,
        28..31 => Handed::Identify {
            identity: of_kind(0, random).max(4),
            sort: random.between(METHOD, FIELD),
            class: class(random),
            is_static: random.between(0, 1),
            is_final: random.between(0, 1),
        },
        24..26 => Handed::Attach { thread, env },
        26..28 => Handed::Detach { thread },
        20..22 => Handed::Declare {
            class: class(random),
            superclass: class(random),
        },
        22..24 => Handed::State {
            thread,
            handle: number(random),
            class: class(random),
        },
        1..7 => {
            let count = random.below(MOST_HANDLES + 1);
            let mut handles = [0; MOST_HANDLES];
            for handle in &mut handles[..count] {
                *handle = of_kind(LOCAL, random);
            }
            Handed::Enter {
                thread,
                env,
                count: count as u32,
                handles,
            }
        }
        7..10 => Handed::Leave {
            thread,
            result: number(random),
        },
        10..15 => Handed::Call {
            thread,
            env,
            function,
            places: facts.places.map(|kind| match kind {
                PlaceKind::Unused => 0,
                _ => number(random),
            }),
            capacity: match facts.uses_capacity {
                true => narrow(random).cast_signed(),
                false => 0,
            },
        },
        _ => {
            let is_null = random.percent(10);
            Handed::Return {
                thread,
                function,
                result: match facts.result {
                    _ if is_null => 0,
                    ResultKind::Nothing | ResultKind::Status => 0,
                    ResultKind::Local => of_kind(LOCAL, random),
                    ResultKind::Global => of_kind(GLOBAL, random),
                    ResultKind::Weak => of_kind(WEAK, random),
                    ResultKind::Identity => of_kind(0, random),
                    ResultKind::Buffer(_) => number(random),
                },
                status: match facts.result {
                    ResultKind::Status => narrow(random).cast_signed(),
                    _ => 0,
                },
                pending: random.between(0, 1),
            }
        }
    }
}

/// Changes one of the numbers, or two.
fn spoil(handed: &mut Handed, random: &mut Random) {
    for _ in 0..random.between(1, 2) {
        match handed {
            Handed::Enter {
                thread,
                env,
                count,
                handles,
            } => match random.below(5) {
                0 => *thread = other_thread(random),
                1 => *env = number(random),
                2 => *count = other_count(random),
                3 => handles[random.below(MOST_HANDLES)] = number(random),
                _ => handles[random.below(MOST_HANDLES)] = of_kind(LOCAL, random),
            },
            Handed::Leave { thread, result } => match random.below(2) {
                0 => *thread = other_thread(random),
                _ => *result = number(random),
            },
            Handed::Call {
                thread,
                env,
                function,
                places,
                capacity,
            } => match random.below(5) {
                0 => *thread = other_thread(random),
                1 => *env = number(random),
                2 => *function = other_function(random),
                3 => places[random.below(3)] = number(random),
                _ => *capacity = narrow(random).cast_signed(),
            },
            Handed::Return {
                thread,
                function,
                result,
                status,
                pending,
            } => match random.below(5) {
                0 => *thread = other_thread(random),
                1 => *function = other_function(random),
                2 => *result = number(random),
                3 => *status = narrow(random).cast_signed(),
                _ => *pending = narrow(random),
            },
            Handed::Attach { thread, env } => match random.below(2) {
                0 => *thread = other_thread(random),
                _ => *env = number(random),
            },
            Handed::Detach { thread } => *thread = other_thread(random),
            Handed::Declare { class, superclass } => match random.below(2) {
                0 => *class = other_class(random),
                _ => *superclass = other_class(random),
            },
            Handed::State {
                thread,
                handle,
                class,
            } => match random.below(3) {
                0 => *thread = other_thread(random),
                1 => *handle = number(random),
                _ => *class = other_class(random),
            },
            Handed::Identify {
                identity,
                sort,
                class,
                is_static,
                is_final,
            } => match random.below(5) {
                0 => *identity = number(random),
                1 => *sort = other_flag(random),
                2 => *class = other_class(random),
                3 => *is_static = other_flag(random),
                _ => *is_final = other_flag(random),
            },
            Handed::End => {}
        }
    }
}

fn of_kind(kind: Handle, random: &mut Random) -> Handle {
    number(random) & !3 | kind
}

/// Threads about both ends, and such as would be one if they were cut to 8 or 16 bits.
fn other_thread(random: &mut Random) -> u32 {
    let one = random.between(1, THREADS);
    match random.below(6) {
        0 => 0,
        1 => THREADS,
        2 => THREADS + 1,
        3 => one + (1 << 8),
        4 => one + (1 << 16),
        _ => narrow(random),
    }
}

fn class(random: &mut Random) -> Class {
    const LAST: Class = MOST_CLASSES as Class;
    match random.below(3) {
        0 => random.between(1, 20),
        1 => random.between(LAST - 2, LAST),
        _ => random.between(1, LAST),
    }
}

/// Classes about both ends, and such as would be one if they were cut to 12 or 16 bits.
fn other_class(random: &mut Random) -> Class {
    let one = class(random);
    match random.below(5) {
        0 => 0,
        1 => MOST_CLASSES as Class + random.between(0, 2),
        2 => one + (1 << 12),
        3 => one + (1 << 16),
        _ => narrow(random),
    }
}

/// Sorts and flags about both ends, and such as would be one if they were cut to 8 or 16 bits.
fn other_flag(random: &mut Random) -> u32 {
    let one = random.between(0, 3);
    match random.below(4) {
        0..2 => one,
        2 => one + random.pick(&[1 << 8, 1 << 16]),
        _ => narrow(random),
    }
}

fn other_count(random: &mut Random) -> u32 {
    let one = random.between(0, MOST_HANDLES as u32 + 2);
    match random.below(4) {
        0..2 => one,
        2 => one + (1 << 8),
        _ => narrow(random),
    }
}

fn other_function(random: &mut Random) -> u32 {
    let one = random.between(FIRST_FUNCTION - 1, LAST_FUNCTION + 1);
    match random.below(4) {
        0 => one,
        1 => one + (1 << 8),
        2 => one + (1 << 16),
        _ => narrow(random),
    }
}

/// A handle or another number of its width.
fn number(random: &mut Random) -> Number {
    of_bits(Number::BITS, random)
}

/// A number that C has in 32 bits.
fn narrow(random: &mut Random) -> u32 {
    of_bits(u32::BITS, random) as u32
}

/// Of so many bits small ones, those at the end of the range, about its middle and about each power of two, and any, of each length as often or mostly long.
fn of_bits(bits: u32, random: &mut Random) -> u64 {
    let greatest = u64::MAX >> (u64::BITS - bits);
    let few = u64::from(random.between(0, 5));
    match random.below(7) {
        0 => 0,
        1 => random.between(0, 20).into(),
        2 => greatest - few,
        3 => (1 << (bits / 2)) - 2 + few,
        4 => (1 << random.below(bits as usize)) - few % 2,
        5 => random.number() >> random.between(u64::BITS - bits, u64::BITS - 1),
        _ => random.number() & greatest,
    }
}
