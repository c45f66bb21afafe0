//! Big traces whose calls use a thousand identities evenly, and the same trace with the same calls on handles.
//!
//! All begin alike: two natives with eight arguments each, a thousand globals and a thousand stated identities. Then come calls of one function after
//! another, each with an argument at the first place: GetIntField and CallVoidMethod by turns, with the next identity at the second place; or IsSameObject, with
//! the next global there, which has two handles, no class and no result; or GetArrayLength, which has no second place.

use super::accepted::Accepted;
use crate::class::OBJECT;
use crate::facts::{GLOBAL, IS_SAME_OBJECT, LOCAL};
use crate::identity::{FIELD, METHOD};
use crate::limits::{Handle, MOST_HANDLES};
use crate::line::Event;
use crate::random::Random;
use crate::twin::ADDRESS;
use std::io::{self, Write};

const NEW_GLOBAL_REF: u32 = 21;
const CALL_VOID_METHOD: u32 = 61;
const GET_INT_FIELD: u32 = 100;
const GET_ARRAY_LENGTH: u32 = 171;

const IDENTITIES: usize = 1_000;
/// From an identity to the next one that is used: no part of it divides their number.
const STRIDE: usize = 617;
const THREADS: u32 = 2;

/// What stands at the second place of the calls.
#[derive(Clone, Copy, Debug)]
pub enum Second {
    /// An identity of those from 4 on.
    InARow,
    /// An identity such as a VM gives: an address, which stands anywhere.
    Scattered,
    /// A global.
    Global,
    Nothing,
}

/// Writes such a trace of so many lines, the last a Z.
pub fn write(second: Second, mut trace: Accepted<impl Write>, lines: usize) -> io::Result<()> {
    let mut events = opening(second).into_iter();
    let mut calls = Calls {
        second,
        random: Random::new(lines as u64),
        used: 0,
        open: None,
    };
    for _ in 1..lines {
        trace.put(events.next().unwrap_or_else(|| calls.next()))?;
    }
    trace.put(Event::Z)
}

fn opening(second: Second) -> Vec<Event> {
    let natives = (1..=THREADS).map(|thread| Event::N {
        thread,
        env: thread.into(),
        count: MOST_HANDLES,
        handles: std::array::from_fn(local),
    });
    let globals = (0..IDENTITIES).flat_map(|index| {
        let call = call(1, NEW_GLOBAL_REF, [local(0), 0, 0]);
        [call, answer(1, NEW_GLOBAL_REF, global(index))]
    });
    let statements = (0..IDENTITIES).map(|index| Event::M {
        identity: identity(second, index),
        sort: sort(index),
        class: OBJECT,
        is_static: 0,
        is_final: 0,
    });
    natives.chain(globals).chain(statements).collect()
}

struct Calls {
    second: Second,
    random: Random,
    /// How many calls there were.
    used: usize,
    /// The thread and the function of the call that is open.
    open: Option<(u32, u32)>,
}

impl Calls {
    /// A call, or its answer; now and then a call uses a local that is not alive.
    fn next(&mut self) -> Event {
        if let Some((thread, function)) = self.open.take() {
            return answer(thread, function, 0);
        }
        let thread = self.random.between(1, THREADS);
        let first = match self.random.below(300) {
            0 => local(MOST_HANDLES),
            other => local(other % MOST_HANDLES),
        };
        let index = self.used * STRIDE % IDENTITIES;
        let (function, second) = match self.second {
            Second::Global => (IS_SAME_OBJECT, global(index)),
            Second::Nothing => (GET_ARRAY_LENGTH, 0),
            _ if sort(index) == FIELD => (GET_INT_FIELD, identity(self.second, index)),
            _ => (CALL_VOID_METHOD, identity(self.second, index)),
        };
        self.used += 1;
        self.open = Some((thread, function));
        call(thread, function, [first, second, 0])
    }
}

fn sort(index: usize) -> u32 {
    [METHOD, FIELD][index % 2]
}

fn identity(second: Second, index: usize) -> Handle {
    match second {
        Second::Scattered => {
            // The same at each asking, and no two alike.
            let offset = Random::new(index as u64).number() >> u32::BITS;
            ADDRESS + 8 * (offset / IDENTITIES as Handle * IDENTITIES as Handle + index as Handle)
        }
        _ => 4 * (index as Handle + 1),
    }
}

fn local(index: usize) -> Handle {
    4 * index as Handle + LOCAL
}

fn global(index: usize) -> Handle {
    4 * index as Handle + GLOBAL
}

fn call(thread: u32, function: u32, places: [Handle; 3]) -> Event {
    Event::C {
        thread,
        env: thread.into(),
        function,
        places,
        capacity: 0,
    }
}

fn answer(thread: u32, function: u32, result: Handle) -> Event {
    Event::R {
        thread,
        function,
        result: result.into(),
        pending: 0,
    }
}
