//! Profiles of made traces: which lines come up, and how often.

use super::dense::DENSE;
use crate::facts::{WITH_CLASS, WITH_IDENTITY};
use crate::limits::{MOST_HANDLES, THREADS};
use crate::refusal::Refusal;

/// What sort of traces are made; chances are in percent.
#[derive(Clone, Copy, Debug)]
pub struct Profile {
    pub name: &'static str,
    /// The fewest and most lines of a usual trace.
    pub usual_lines: (u32, u32),
    /// The fewest and most threads that take part.
    pub threads: (u32, u32),
    /// How many numbers there are of each kind of handle, of identities and of buffers.
    pub numbers: usize,
    /// A number is taken from the ends of its range.
    pub at_ends: u32,
    /// A place, an env or a result is spoilt.
    pub spoilt: u32,
    /// A handle's place has any of the numbers, alive or not.
    pub stale: u32,
    /// A native is entered in an open call.
    pub nested: u32,
    /// A native returns, or an attached thread detaches itself, rather than calls.
    pub left: u32,
    /// A thread without open items attaches itself.
    pub attached: u32,
    /// An N names all the handles it may.
    pub crowded: u32,
    /// Any other N names fewer than so many.
    pub handles: usize,
    /// A class is declared, or stated of a handle, and a place that has a class gets a handle by that.
    pub classed: u32,
    /// An identity is stated, new or known.
    pub identified: u32,
    /// An exception is pending after an R.
    pub pending: u32,
    /// A call is of a favoured function.
    pub favoured: u32,
    pub functions: &'static [u32],
    /// A trace ends by a refusal, or by Z; any other is left open.
    pub refused: u32,
    pub closed: u32,
    /// The refusals by which a trace may end.
    pub refusals: &'static [Refusal],
    pub harm: Harm,
}

/// What is done to the lines of a made trace.
#[derive(Clone, Copy, Debug, PartialEq, Eq)]
pub enum Harm {
    None,
    Bytes,
    Fields,
    Order,
    Edge,
}

/// The profile of which the others say how they differ.
pub const MIXED: Profile = Profile {
    name: "mixed",
    usual_lines: (20, 400),
    threads: (1, 6),
    numbers: 30,
    at_ends: 5,
    spoilt: 8,
    stale: 0,
    nested: 15,
    left: 8,
    attached: 12,
    crowded: 5,
    handles: 4,
    classed: 5,
    identified: 3,
    pending: 6,
    favoured: 40,
    functions: &[
        6, 19, 20, 21, 22, 23, 24, 25, 26, 31, 32, 64, 67, 104, 154, 165, 166, 217, 218, 222, 223,
        226, 227,
    ],
    refused: 45,
    closed: 40,
    refusals: &[4, 5, 6, 9, 10],
    harm: Harm::None,
};

pub const PROFILES: [Profile; 24] = [
    MIXED,
    Profile {
        name: "breaches",
        numbers: 10,
        spoilt: 45,
        pending: 20,
        ..MIXED
    },
    Profile {
        name: "functions",
        favoured: 0,
        ..MIXED
    },
    Profile {
        name: "ends",
        threads: (1, THREADS),
        numbers: 3,
        at_ends: 60,
        left: 35,
        refusals: &[4, 5, 5, 6],
        ..MIXED
    },
    Profile {
        name: "nest",
        usual_lines: (100, 600),
        threads: (1, 2),
        nested: 85,
        left: 3,
        spoilt: 4,
        refusals: &[4, 6, 7, 7, 7],
        ..MIXED
    },
    Profile {
        name: "frames",
        usual_lines: (200, 900),
        threads: (1, 2),
        numbers: 80,
        nested: 10,
        left: 1,
        spoilt: 3,
        attached: 30,
        pending: 2,
        favoured: 95,
        functions: &[6, 19, 19, 19, 19, 19, 19, 19, 19, 19, 19, 20, 25, 26],
        refusals: &[6, 7, 7, 7],
        ..MIXED
    },
    Profile {
        name: "overflow",
        usual_lines: (200, 400),
        threads: (1, 2),
        numbers: 80,
        nested: 4,
        left: 3,
        handles: MOST_HANDLES + 1,
        spoilt: 3,
        attached: 40,
        pending: 2,
        favoured: 95,
        functions: &[
            5, 5, 6, 6, 6, 6, 6, 6, 15, 15, 19, 20, 23, 25, 25, 26, 31, 31, 64, 64, 95, 95, 172,
            172,
        ],
        ..MIXED
    },
    Profile {
        name: "references",
        numbers: 12,
        favoured: 90,
        functions: &[20, 21, 21, 22, 22, 23, 23, 24, 25, 25, 226, 226, 227, 227],
        ..MIXED
    },
    Profile {
        name: "buffers",
        threads: (1, 3),
        numbers: 4,
        favoured: 90,
        functions: &[
            165, 166, 169, 170, 183, 184, 185, 186, 187, 188, 189, 190, 191, 192, 193, 194, 195,
            196, 197, 198,
        ],
        ..MIXED
    },
    Profile {
        name: "critical",
        threads: (1, 3),
        numbers: 3,
        attached: 25,
        favoured: 70,
        functions: &[222, 223, 223, 224, 225, 225],
        ..MIXED
    },
    Profile {
        name: "monitors",
        threads: (1, 3),
        attached: 25,
        favoured: 80,
        functions: &[217, 217, 218, 218],
        ..MIXED
    },
    Profile {
        name: "rows",
        usual_lines: (1_000, 2_000),
        threads: (12, THREADS),
        numbers: 3_000,
        spoilt: 2,
        nested: 40,
        left: 1,
        crowded: 90,
        pending: 1,
        favoured: 90,
        functions: &[6, 21, 25, 25, 226, 23, 31],
        refusals: &[5, 6, 7, 7, 7, 7],
        ..MIXED
    },
    Profile {
        name: "pins",
        usual_lines: (800, 1_400),
        threads: (1, 4),
        spoilt: 2,
        nested: 2,
        left: 1,
        pending: 1,
        favoured: 96,
        functions: &[
            165, 165, 169, 183, 184, 185, 186, 187, 188, 189, 190, 165, 183, 190, 191, 222,
        ],
        refusals: &[7],
        ..MIXED
    },
    Profile {
        name: "leaks",
        usual_lines: (20, 300),
        threads: (1, 4),
        numbers: 3,
        spoilt: 4,
        nested: 10,
        left: 4,
        pending: 2,
        favoured: 95,
        functions: &[
            21, 21, 22, 226, 226, 227, 165, 165, 165, 166, 166, 169, 169, 170, 183, 191, 222, 222,
            223, 224, 224, 225,
        ],
        refused: 15,
        closed: 75,
        ..MIXED
    },
    Profile {
        name: "classes",
        usual_lines: (100, 400),
        threads: (1, 4),
        numbers: 8,
        spoilt: 3,
        classed: 25,
        pending: 2,
        favoured: 85,
        functions: &WITH_CLASS,
        refusals: &[9, 9, 10],
        ..MIXED
    },
    Profile {
        name: "copies",
        usual_lines: (20, 300),
        threads: (1, 3),
        numbers: 4,
        spoilt: 3,
        stale: 4,
        classed: 20,
        pending: 2,
        favoured: 95,
        functions: &[
            6, 11, 13, 13, 19, 20, 21, 22, 23, 25, 31, 31, 32, 64, 164, 168, 226, 227,
        ],
        refusals: &[9, 10, 10],
        ..MIXED
    },
    Profile {
        name: "identities",
        usual_lines: (50, 400),
        threads: (1, 3),
        numbers: 8,
        spoilt: 4,
        classed: 3,
        identified: 20,
        pending: 2,
        favoured: 90,
        functions: &WITH_IDENTITY,
        refusals: &[4, 9, 9],
        ..MIXED
    },
    // As many identities as there is room for, and more.
    Profile {
        name: "table",
        usual_lines: (1_500, 2_000),
        threads: (1, 2),
        numbers: 3_000,
        spoilt: 2,
        classed: 1,
        identified: 95,
        pending: 1,
        favoured: 90,
        functions: &WITH_IDENTITY,
        refusals: &[7, 7, 9],
        ..MIXED
    },
    Profile {
        name: "polls",
        usual_lines: (20, 200),
        threads: (2, 5),
        numbers: 6,
        stale: 10,
        nested: 20,
        left: 30,
        attached: 65,
        classed: 0,
        pending: 10,
        favoured: 90,
        functions: &[
            6, 6, 19, 19, 20, 20, 20, 21, 23, 24, 24, 217, 217, 217, 218, 222, 223,
        ],
        refused: 65,
        closed: 25,
        refusals: &[4, 4, 4, 5, 5, 5],
        ..MIXED
    },
    Profile {
        name: "bytes",
        usual_lines: (1, 80),
        left: 20,
        harm: Harm::Bytes,
        ..MIXED
    },
    Profile {
        name: "fields",
        usual_lines: (1, 80),
        left: 20,
        harm: Harm::Fields,
        ..MIXED
    },
    Profile {
        name: "order",
        usual_lines: (5, 200),
        harm: Harm::Order,
        ..MIXED
    },
    Profile {
        name: "edges",
        usual_lines: (0, 2),
        harm: Harm::Edge,
        ..MIXED
    },
    Profile {
        name: "small",
        usual_lines: (5, 25),
        threads: (1, 2),
        numbers: 3,
        at_ends: 10,
        spoilt: 15,
        left: 15,
        pending: 10,
        favoured: 90,
        refusals: &[4, 5, 6, 7, 9, 10],
        ..MIXED
    },
];

pub fn profile(name: &str) -> Option<&'static Profile> {
    let mut profiles = PROFILES.iter().chain(&DENSE);
    profiles.find(|profile| profile.name == name)
}
