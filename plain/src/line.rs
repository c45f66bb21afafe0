//! A line of a trace: the ten events, the reader and the writer of one line.

use crate::facts::{known, PlaceKind, ResultKind, GLOBAL, LOCAL, WEAK};
use crate::form::{form, MOST_NUMBERS};
use crate::limits::{Class, Field, Handle, MOST_BYTES, MOST_HANDLES};
use crate::refusal::{Refusal, MALFORMED, NO_LINE, NO_ROOM, OUT_OF_RANGE};
use std::ops::Deref;

/// What stands for each number that is greater than a handle can be: it is beyond all ranges.
const BEYOND: Field = Field::MAX;
/// The most digits of which each number is no greater.
const SAFE_DIGITS: usize = Handle::MAX.ilog10() as usize;

#[derive(Clone, Copy, Debug, PartialEq, Eq)]
pub enum Event {
    /// Java enters native, with the first `count` of the handles; the slots past them are 0.
    N {
        thread: u32,
        env: Handle,
        count: usize,
        handles: [Handle; MOST_HANDLES],
    },
    /// A native returns to Java.
    X { thread: u32, result: Handle },
    /// C calls a JNI function; the places are a, b, c and the capacity is n.
    C {
        thread: u32,
        env: Handle,
        function: u32,
        places: [Handle; 3],
        capacity: i32,
    },
    /// The function returns; the result is a status or what a handle may be.
    R {
        thread: u32,
        function: u32,
        result: Field,
        pending: u32,
    },
    /// A C thread attaches itself.
    A { thread: u32, env: Handle },
    /// It detaches itself.
    D { thread: u32 },
    /// A class is declared, directly below its super.
    K { class: Class, superclass: Class },
    /// The class of a handle is stated.
    O {
        thread: u32,
        handle: Handle,
        class: Class,
    },
    /// An identity is stated: its sort, its class, and whether it is static and final.
    M {
        identity: Handle,
        sort: u32,
        class: Class,
        is_static: u32,
        is_final: u32,
    },
    /// End of the run.
    Z,
}

impl Event {
    /// The event of a line with this letter and these numbers, each in its range.
    fn of(letter: u8, numbers: &[Field]) -> Option<Event> {
        let event = match (letter, numbers) {
            (b'N', &[thread, env, ref named @ ..]) => {
                let mut handles = [0; MOST_HANDLES];
                for (handle, &number) in handles.iter_mut().zip(named) {
                    *handle = number.try_into().ok()?;
                }
                Event::N {
                    thread: thread.try_into().ok()?,
                    env: env.try_into().ok()?,
                    count: named.len(),
                    handles,
                }
            }
            (b'X', &[thread, result]) => Event::X {
                thread: thread.try_into().ok()?,
                result: result.try_into().ok()?,
            },
            (b'C', &[thread, env, function, a, b, c, n]) => Event::C {
                thread: thread.try_into().ok()?,
                env: env.try_into().ok()?,
                function: function.try_into().ok()?,
                places: [a.try_into().ok()?, b.try_into().ok()?, c.try_into().ok()?],
                capacity: n.try_into().ok()?,
            },
            (b'R', &[thread, function, result, pending]) => Event::R {
                thread: thread.try_into().ok()?,
                function: function.try_into().ok()?,
                result,
                pending: pending.try_into().ok()?,
            },
            (b'A', &[thread, env]) => Event::A {
                thread: thread.try_into().ok()?,
                env: env.try_into().ok()?,
            },
            (b'D', &[thread]) => Event::D {
                thread: thread.try_into().ok()?,
            },
            (b'K', &[class, superclass]) => Event::K {
                class: class.try_into().ok()?,
                superclass: superclass.try_into().ok()?,
            },
            (b'O', &[thread, handle, class]) => Event::O {
                thread: thread.try_into().ok()?,
                handle: handle.try_into().ok()?,
                class: class.try_into().ok()?,
            },
            (b'M', &[identity, sort, class, is_static, is_final]) => Event::M {
                identity: identity.try_into().ok()?,
                sort: sort.try_into().ok()?,
                class: class.try_into().ok()?,
                is_static: is_static.try_into().ok()?,
                is_final: is_final.try_into().ok()?,
            },
            (b'Z', &[]) => Event::Z,
            _ => return None,
        };
        Some(event)
    }

    /// The letter and the numbers of its line; there are none where an N counts handles that it has not, or has one that it does not count.
    pub fn parts(&self) -> Option<(u8, Numbers)> {
        let parts = match *self {
            Event::N {
                thread,
                env,
                count,
                handles,
            } => {
                let (named, past) = handles.split_at_checked(count)?;
                if past.iter().any(|&handle| handle != 0) {
                    return None;
                }
                let mut numbers = Numbers::of([thread.into(), env.into()]);
                for &handle in named {
                    numbers.push(handle.into());
                }
                (b'N', numbers)
            }
            Event::X { thread, result } => (b'X', Numbers::of([thread.into(), result.into()])),
            Event::C {
                thread,
                env,
                function,
                places,
                capacity,
            } => {
                let mut numbers = Numbers::of([thread.into(), env.into(), function.into()]);
                for place in places {
                    numbers.push(place.into());
                }
                numbers.push(capacity.into());
                (b'C', numbers)
            }
            Event::R {
                thread,
                function,
                result,
                pending,
            } => {
                let numbers = [thread.into(), function.into(), result, pending.into()];
                (b'R', Numbers::of(numbers))
            }
            Event::A { thread, env } => (b'A', Numbers::of([thread.into(), env.into()])),
            Event::D { thread } => (b'D', Numbers::of([thread.into()])),
            Event::K { class, superclass } => {
                (b'K', Numbers::of([class.into(), superclass.into()]))
            }
            Event::O {
                thread,
                handle,
                class,
            } => {
                let numbers = [thread.into(), handle.into(), class.into()];
                (b'O', Numbers::of(numbers))
            }
            Event::M {
                identity,
                sort,
                class,
                is_static,
                is_final,
            } => {
                let mut numbers = Numbers::of([identity.into()]);
                for number in [sort, class, is_static, is_final] {
                    numbers.push(number.into());
                }
                (b'M', numbers)
            }
            Event::Z => (b'Z', Numbers::of([])),
        };
        Some(parts)
    }

    /// Whether each N handle, unused place, capacity, result and stated identity is what is said of it.
    fn fits(&self) -> bool {
        match *self {
            Event::N { count, handles, .. } => {
                handles[..count].iter().all(|handle| handle % 4 == LOCAL)
            }
            Event::C {
                function,
                places,
                capacity,
                ..
            } => {
                let facts = known(function);
                let is_zero = |(kind, value)| kind != PlaceKind::Unused || value == 0;
                facts.places.into_iter().zip(places).all(is_zero)
                    && (facts.uses_capacity || capacity == 0)
            }
            Event::R {
                function, result, ..
            } => is_result(known(function).result, result),
            Event::M { identity, .. } => identity.is_multiple_of(4),
            Event::X { .. }
            | Event::A { .. }
            | Event::D { .. }
            | Event::K { .. }
            | Event::O { .. }
            | Event::Z => true,
        }
    }
}

/// Reads one lent line, all its bytes; its last must be the LF.
pub fn read(line: &[u8]) -> Result<Event, Refusal> {
    let body = match line {
        [body @ .., b'\n'] if body.len() <= MOST_BYTES => body,
        _ => return Err(NO_LINE),
    };
    let Some((letter, mut rest)) = body.split_first() else {
        return Err(MALFORMED);
    };
    let mut numbers = [0; MOST_NUMBERS];
    let mut count = 0;
    while let [b'\t', field @ ..] = rest {
        if count == MOST_NUMBERS {
            return Err(MALFORMED);
        }
        (numbers[count], rest) = number(field).ok_or(MALFORMED)?;
        count += 1;
    }
    let form = form(*letter).filter(|form| rest.is_empty() && form.counts(count));
    let form = form.ok_or(MALFORMED)?;
    let numbers = &numbers[..count];
    if !form.holds(numbers) {
        return Err(OUT_OF_RANGE);
    }
    match Event::of(form.letter, numbers) {
        Some(event) if event.fits() => Ok(event),
        _ => Err(OUT_OF_RANGE),
    }
}

/// Writes the event's line at the start of the buffer and gives its length; bytes past it stay.
pub fn write(event: &Event, buffer: &mut [u8]) -> Result<usize, Refusal> {
    let (letter, numbers) = event.parts().ok_or(OUT_OF_RANGE)?;
    if !form(letter).is_some_and(|form| form.holds(&numbers)) || !event.fits() {
        return Err(OUT_OF_RANGE);
    }
    let mut line = Line::new();
    line.byte(letter);
    for &number in numbers.iter() {
        line.number(number);
    }
    line.byte(b'\n');
    let bytes = line.bytes();
    buffer
        .get_mut(..bytes.len())
        .ok_or(NO_ROOM)?
        .copy_from_slice(bytes);
    Ok(bytes.len())
}

/// The number at the start of a field, if its form is right, and the bytes after it.
fn number(field: &[u8]) -> Option<(Field, &[u8])> {
    let (negative, digits) = match field {
        [b'-', digits @ ..] => (true, digits),
        digits => (false, digits),
    };
    // Of more digits than are safe this may wrap, and they are looked at again.
    let mut size: Handle = 0;
    let mut rest = digits;
    while let [digit @ b'0'..=b'9', after @ ..] = rest {
        size = size.wrapping_mul(10).wrapping_add((digit - b'0').into());
        rest = after;
    }
    let length = digits.len() - rest.len();
    if length == 0 || digits[0] == b'0' && (length > 1 || negative) {
        return None;
    }
    let size = if length <= SAFE_DIGITS {
        size.into()
    } else {
        checked(&digits[..length]).map_or(BEYOND, Field::from)
    };
    Some((if negative { -size } else { size }, rest))
}

/// The number that digits stand for, if it is not greater than a handle can be.
fn checked(digits: &[u8]) -> Option<Handle> {
    digits.iter().try_fold(0, |size: Handle, digit| {
        size.checked_mul(10)?.checked_add((digit - b'0').into())
    })
}

/// What a result makes; a status below zero makes nothing.
pub fn made(result: Field) -> Handle {
    Handle::try_from(result).unwrap_or(0)
}

/// Whether a function with results of this kind may give this one.
fn is_result(kind: ResultKind, result: Field) -> bool {
    let of_kind = |kind| {
        let handle = Handle::try_from(result);
        handle.is_ok_and(|handle| handle == 0 || handle % 4 == kind)
    };
    match kind {
        ResultKind::Nothing => result == 0,
        ResultKind::Local => of_kind(LOCAL),
        ResultKind::Global => of_kind(GLOBAL),
        ResultKind::Weak => of_kind(WEAK),
        ResultKind::Identity => of_kind(0),
        ResultKind::Buffer(_) => result >= 0,
        ResultKind::Status => i32::try_from(result).is_ok(),
    }
}

/// The numbers of a line in their order.
#[derive(Clone, Copy, Debug, PartialEq, Eq)]
pub struct Numbers {
    numbers: [Field; MOST_NUMBERS],
    count: usize,
}

impl Numbers {
    fn of<const COUNT: usize>(first: [Field; COUNT]) -> Numbers {
        let mut numbers = [0; MOST_NUMBERS];
        numbers[..COUNT].copy_from_slice(&first);
        Numbers {
            numbers,
            count: COUNT,
        }
    }

    fn push(&mut self, number: Field) {
        self.numbers[self.count] = number;
        self.count += 1;
    }
}

impl Deref for Numbers {
    type Target = [Field];

    fn deref(&self) -> &[Field] {
        &self.numbers[..self.count]
    }
}

/// A line being written; the longest is shorter than a line may be.
struct Line {
    bytes: [u8; MOST_BYTES],
    length: usize,
}

impl Line {
    fn new() -> Line {
        Line {
            bytes: [0; MOST_BYTES],
            length: 0,
        }
    }

    fn byte(&mut self, byte: u8) {
        self.bytes[self.length] = byte;
        self.length += 1;
    }

    fn number(&mut self, number: Field) {
        self.byte(b'\t');
        if number < 0 {
            self.byte(b'-');
        }
        let start = self.length;
        let mut rest = Handle::try_from(number.unsigned_abs()).expect("a number in range");
        loop {
            self.byte(b'0' + (rest % 10) as u8);
            rest /= 10;
            if rest == 0 {
                break;
            }
        }
        self.bytes[start..self.length].reverse();
    }

    fn bytes(&self) -> &[u8] {
        &self.bytes[..self.length]
    }
}
