//! Big traces to measure judges on, in kinds: every line accepted, some condemned.

mod accepted;
mod balanced;
mod identified;
mod pool;
mod recorded;
pub mod slot;

use crate::judge::Judge;
use crate::limits::*;
use crate::room::{Room, LENT};
use accepted::Accepted;
use balanced::Balance;
use identified::Second;
use std::io::{self, Write};

/// A kind of big trace, and the room it takes.
#[derive(Clone, Copy, Debug)]
pub struct Kind {
    pub name: &'static str,
    pub room: Room,
    manner: Manner,
}

#[derive(Clone, Copy, Debug)]
enum Manner {
    Balanced(Balance),
    Identified(Second),
    Recorded,
}

/// The room of a kind that says nothing else: rows for 2,000 handles alive, more than the program lends.
const ROOM: Room = of_rows(2_048);

/// 2,000 handles alive.
const STEADY: Balance = Balance {
    threads: THREADS,
    deepest: 2,
    nested: 0,
    left: 0,
    used: 60,
    pinned: 60,
    alive: 2_000,
    shared: 300,
    filled: false,
    slot: None,
    wide: false,
    outstanding: 0,
    chain: 0,
};

pub const KINDS: [Kind; 15] = [
    balanced("steady", STEADY),
    balanced(
        "threads",
        Balance {
            deepest: 6,
            nested: 20,
            left: 15,
            alive: 400,
            outstanding: 10,
            ..STEADY
        },
    ),
    balanced(
        "nest",
        Balance {
            threads: 4,
            deepest: MOST_ITEMS,
            nested: 90,
            left: 2,
            used: 80,
            alive: 600,
            ..STEADY
        },
    ),
    balanced(
        "buffers",
        Balance {
            threads: 8,
            used: 30,
            alive: 200,
            outstanding: 240,
            ..STEADY
        },
    ),
    balanced(
        "uses",
        Balance {
            used: 97,
            alive: 1_000,
            ..STEADY
        },
    ),
    balanced(
        "classes",
        Balance {
            used: 100,
            alive: 0,
            chain: 50,
            ..STEADY
        },
    ),
    // Buffers got and released one by one.
    balanced(
        "turns",
        Balance {
            threads: 8,
            used: 20,
            pinned: 95,
            alive: 64,
            shared: 10,
            outstanding: 4,
            ..STEADY
        },
    ),
    // As steady, where an index of the handles helps least.
    balanced(
        "oneslot",
        Balance {
            slot: Some(1),
            ..STEADY
        },
    ),
    Kind {
        room: of_rows(16_384),
        ..balanced(
            "crowd",
            Balance {
                alive: 16_000,
                shared: 2_400,
                filled: true,
                ..STEADY
            },
        )
    },
    // As steady, in the rows that the program lends, with numbers such as a VM of 64 bits gives.
    Kind {
        room: LENT,
        ..balanced(
            "wide",
            Balance {
                alive: 1_000,
                shared: 150,
                wide: true,
                ..STEADY
            },
        )
    },
    identified("identities", Second::InARow),
    identified("scattered", Second::Scattered),
    identified("handles", Second::Global),
    identified("bare", Second::Nothing),
    Kind {
        name: "recorded",
        room: ROOM,
        manner: Manner::Recorded,
    },
];

/// So many reference rows, and all else as the program lends it.
const fn of_rows(references: usize) -> Room {
    Room { references, ..LENT }
}

const fn balanced(name: &'static str, balance: Balance) -> Kind {
    Kind {
        name,
        room: ROOM,
        manner: Manner::Balanced(balance),
    }
}

/// In the rows that the program lends.
const fn identified(name: &'static str, second: Second) -> Kind {
    Kind {
        name,
        room: LENT,
        manner: Manner::Identified(second),
    }
}

/// As steady, with so many handles alive over four threads and hardly more rows than that; they are made first.
fn alive(handles: usize) -> Kind {
    let balance = Balance {
        threads: 4,
        alive: handles,
        shared: handles * 15 / 100,
        filled: true,
        ..STEADY
    };
    let rows = handles + handles / 32 + 64;
    Kind {
        room: of_rows(rows.next_multiple_of(64).min(MOST_ROOM)),
        ..balanced("alive", balance)
    }
}

/// The kind of this name: one of `KINDS`, or `alive-N` for so many handles, 16 to 65,536.
pub fn kind(name: &str) -> Option<Kind> {
    if let Some(handles) = name.strip_prefix("alive-") {
        let handles = handles.parse().ok()?;
        return (16..=MOST_ROOM).contains(&handles).then(|| alive(handles));
    }
    KINDS.into_iter().find(|kind| kind.name == name)
}

/// Writes a trace of this kind and of so many lines, the last a Z; there must be one line at least.
pub fn big(kind: &Kind, lines: usize, output: &mut impl Write) -> io::Result<()> {
    let judge = Judge::indexed(kind.room);
    let trace = Accepted::new(judge, output);
    match &kind.manner {
        Manner::Balanced(balance) => balanced::write(balance, trace, lines),
        Manner::Identified(second) => identified::write(*second, trace, lines),
        Manner::Recorded => recorded::write(trace, lines),
    }
}

/// Writes so many lines that each open or close one native, without a Z, to try the most lines of a trace.
pub fn natives(lines: usize, output: &mut impl Write) -> io::Result<()> {
    for index in 0..lines {
        let line = ["N\t1\t1", "X\t1\t0"][index % 2];
        writeln!(output, "{line}")?;
    }
    Ok(())
}
