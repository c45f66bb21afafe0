//! Profiles of short traces in which the same few things come up again and again.

use super::profiles::{Profile, MIXED};
use crate::limits::MOST_HANDLES;

const FEW: Profile = Profile {
    name: "few",
    usual_lines: (0, 40),
    threads: (1, 2),
    numbers: 2,
    at_ends: 3,
    spoilt: 15,
    stale: 40,
    nested: 20,
    left: 12,
    classed: 0,
    identified: 0,
    favoured: 97,
    refusals: &[4, 5, 6, 7],
    ..MIXED
};

pub const DENSE: [Profile; 11] = [
    Profile {
        name: "locals",
        attached: 25,
        functions: &[6, 6, 6, 19, 19, 20, 20, 23, 23, 24, 26],
        ..FEW
    },
    Profile {
        name: "shared",
        left: 6,
        functions: &[21, 22, 23, 24, 24, 24, 226, 227],
        ..FEW
    },
    Profile {
        name: "pinned",
        functions: &[6, 165, 165, 166, 166, 170, 222, 223, 223, 224, 225],
        ..FEW
    },
    Profile {
        name: "leaking",
        spoilt: 3,
        stale: 0,
        nested: 5,
        left: 3,
        functions: &[21, 21, 22, 226, 227, 165, 165, 165, 166, 166, 222, 222, 223],
        refused: 5,
        closed: 90,
        ..FEW
    },
    Profile {
        name: "held",
        attached: 25,
        pending: 30,
        functions: &[6, 17, 24, 217, 217, 218, 218],
        ..FEW
    },
    Profile {
        name: "polling",
        left: 30,
        attached: 70,
        functions: &[6, 6, 19, 19, 20, 24, 24, 24, 217, 217, 218, 222, 223],
        refused: 65,
        closed: 20,
        refusals: &[4, 4, 4, 5, 5, 5, 5, 6],
        ..FEW
    },
    Profile {
        name: "full",
        usual_lines: (50, 50),
        threads: (1, 1),
        numbers: 80,
        at_ends: 0,
        spoilt: 0,
        stale: 0,
        nested: 3,
        left: 0,
        attached: 35,
        crowded: 0,
        handles: MOST_HANDLES + 1,
        pending: 0,
        favoured: 100,
        functions: &[
            6, 6, 6, 6, 6, 6, 6, 6, 6, 6, 6, 6, 6, 6, 6, 6, 6, 6, 6, 6, 6, 6, 19, 23, 26, 26,
        ],
        refused: 0,
        closed: 10,
        ..FEW
    },
    Profile {
        name: "stated",
        spoilt: 5,
        stale: 10,
        classed: 35,
        pending: 0,
        functions: &[
            6, 11, 13, 13, 19, 20, 20, 21, 21, 22, 23, 25, 31, 31, 32, 64, 164, 164, 168, 172, 226,
            227,
        ],
        refused: 40,
        closed: 10,
        refusals: &[9, 9, 10, 10],
        ..FEW
    },
    Profile {
        name: "restated",
        threads: (1, 2),
        numbers: 1,
        spoilt: 2,
        stale: 30,
        classed: 30,
        pending: 0,
        functions: &[
            6, 13, 19, 19, 20, 20, 21, 21, 22, 22, 23, 164, 164, 226, 226, 227, 227,
        ],
        refused: 50,
        closed: 5,
        refusals: &[10],
        ..FEW
    },
    Profile {
        name: "identified",
        numbers: 3,
        spoilt: 6,
        stale: 3,
        classed: 2,
        identified: 40,
        pending: 0,
        functions: &[
            7, 9, 9, 12, 12, 28, 33, 34, 61, 61, 64, 67, 93, 94, 95, 100, 104, 109, 112, 113, 114,
            141, 143, 144, 145, 150, 154, 159, 162,
        ],
        refused: 40,
        closed: 10,
        refusals: &[4, 7, 7, 9, 9],
        ..FEW
    },
    Profile {
        name: "raised",
        usual_lines: (0, 45),
        threads: (1, 1),
        numbers: 6,
        spoilt: 0,
        stale: 0,
        nested: 8,
        left: 0,
        favoured: 100,
        functions: &[6, 6, 6, 19, 23, 23, 26, 26, 26],
        ..FEW
    },
];
