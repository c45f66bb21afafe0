//! The reader and the writers of lines as a C caller has them (include/weir.h): a line's letter and numbers, and what each writer is handed.

use crate::facts::{facts, ResultKind};
use crate::form::MOST_NUMBERS;
use crate::limits::{Class, Handle, Number, MOST_HANDLES};
use crate::line::{self, Event};
use crate::refusal::{Refusal, OUT_OF_RANGE};

/// The line's letter, its numbers and their count being left, and 0 in each slot past them; or minus the refusal's number, all being left as it was.
pub fn read(line: &[u8], numbers: &mut [Number; MOST_NUMBERS], count: &mut u32) -> i32 {
    let event = match line::read(line) {
        Ok(event) => event,
        Err(refusal) => return -i32::from(refusal),
    };
    let (letter, parts) = event.parts().expect("an event that was read");
    *numbers = [0; MOST_NUMBERS];
    for (number, &part) in numbers.iter_mut().zip(parts.iter()) {
        // Below zero this is its two's complement.
        *number = part as Number;
    }
    *count = parts.len() as u32;
    letter.into()
}

/// What the writer of each kind of line is handed.
#[derive(Clone, Copy, Debug, PartialEq, Eq)]
pub enum Handed {
    Enter {
        thread: u32,
        env: Handle,
        count: u32,
        handles: [Handle; MOST_HANDLES],
    },
    Leave {
        thread: u32,
        result: Handle,
    },
    Call {
        thread: u32,
        env: Handle,
        function: u32,
        places: [Handle; 3],
        capacity: i32,
    },
    Return {
        thread: u32,
        function: u32,
        result: Handle,
        status: i32,
        pending: u32,
    },
    Attach {
        thread: u32,
        env: Handle,
    },
    Detach {
        thread: u32,
    },
    Declare {
        class: Class,
        superclass: Class,
    },
    State {
        thread: u32,
        handle: Handle,
        class: Class,
    },
    Identify {
        identity: Handle,
        sort: u32,
        class: Class,
        is_static: u32,
        is_final: u32,
    },
    End,
}

impl Handed {
    /// What the writer is handed for a line with this letter and these numbers, as the reader leaves them.
    pub fn of(letter: u8, numbers: &[Number]) -> Option<Handed> {
        let handed = match (letter, numbers) {
            (b'N', &[thread, env, ref named @ ..]) => {
                let mut handles = [0; MOST_HANDLES];
                handles.get_mut(..named.len())?.copy_from_slice(named);
                Handed::Enter {
                    thread: thread.try_into().ok()?,
                    env,
                    count: named.len() as u32,
                    handles,
                }
            }
            (b'X', &[thread, result]) => Handed::Leave {
                thread: thread.try_into().ok()?,
                result,
            },
            (b'C', &[thread, env, function, a, b, c, n]) => Handed::Call {
                thread: thread.try_into().ok()?,
                env,
                function: function.try_into().ok()?,
                places: [a, b, c],
                capacity: signed(n)?,
            },
            (b'R', &[thread, function, number, pending]) => {
                let function = function.try_into().ok()?;
                let (result, status) = if gives_status(function) {
                    (0, signed(number)?)
                } else {
                    (number, 0)
                };
                Handed::Return {
                    thread: thread.try_into().ok()?,
                    function,
                    result,
                    status,
                    pending: pending.try_into().ok()?,
                }
            }
            (b'A', &[thread, env]) => Handed::Attach {
                thread: thread.try_into().ok()?,
                env,
            },
            (b'D', &[thread]) => Handed::Detach {
                thread: thread.try_into().ok()?,
            },
            (b'K', &[class, superclass]) => Handed::Declare {
                class: class.try_into().ok()?,
                superclass: superclass.try_into().ok()?,
            },
            (b'O', &[thread, handle, class]) => Handed::State {
                thread: thread.try_into().ok()?,
                handle,
                class: class.try_into().ok()?,
            },
            (b'M', &[identity, sort, class, is_static, is_final]) => Handed::Identify {
                identity,
                sort: sort.try_into().ok()?,
                class: class.try_into().ok()?,
                is_static: is_static.try_into().ok()?,
                is_final: is_final.try_into().ok()?,
            },
            (b'Z', &[]) => Handed::End,
            _ => return None,
        };
        Some(handed)
    }

    pub fn letter(&self) -> u8 {
        match self {
            Handed::Enter { .. } => b'N',
            Handed::Leave { .. } => b'X',
            Handed::Call { .. } => b'C',
            Handed::Return { .. } => b'R',
            Handed::Attach { .. } => b'A',
            Handed::Detach { .. } => b'D',
            Handed::Declare { .. } => b'K',
            Handed::State { .. } => b'O',
            Handed::Identify { .. } => b'M',
            Handed::End => b'Z',
        }
    }

    /// The length of the line, which is written at the start of the buffer, or minus the refusal's number.
    pub fn write(&self, buffer: &mut [u8]) -> i32 {
        match self.written(buffer) {
            Ok(length) => length as i32,
            Err(refusal) => -i32::from(refusal),
        }
    }

    fn written(&self, buffer: &mut [u8]) -> Result<usize, Refusal> {
        line::write(&self.event().ok_or(OUT_OF_RANGE)?, buffer)
    }

    /// There is none where a function that gives a status has a result too, or any other a status.
    fn event(&self) -> Option<Event> {
        let event = match *self {
            Handed::Enter {
                thread,
                env,
                count,
                handles,
            } => Event::N {
                thread,
                env,
                count: count as usize,
                handles,
            },
            Handed::Leave { thread, result } => Event::X { thread, result },
            Handed::Call {
                thread,
                env,
                function,
                places,
                capacity,
            } => Event::C {
                thread,
                env,
                function,
                places,
                capacity,
            },
            Handed::Return {
                thread,
                function,
                result,
                status,
                pending,
            } => Event::R {
                thread,
                function,
                result: match (gives_status(function), result, status) {
                    (true, 0, status) => status.into(),
                    (false, result, 0) => result.into(),
                    _ => return None,
                },
                pending,
            },
            Handed::Attach { thread, env } => Event::A { thread, env },
            Handed::Detach { thread } => Event::D { thread },
            Handed::Declare { class, superclass } => Event::K { class, superclass },
            Handed::State {
                thread,
                handle,
                class,
            } => Event::O {
                thread,
                handle,
                class,
            },
            Handed::Identify {
                identity,
                sort,
                class,
                is_static,
                is_final,
            } => Event::M {
                identity,
                sort,
                class,
                is_static,
                is_final,
            },
            Handed::End => Event::Z,
        };
        Some(event)
    }
}

/// The capacity or the status that a number stands for, which below zero is its two's complement.
fn signed(number: Number) -> Option<i32> {
    number.cast_signed().try_into().ok()
}

fn gives_status(function: u32) -> bool {
    facts(function).is_some_and(|facts| facts.result == ResultKind::Status)
}
