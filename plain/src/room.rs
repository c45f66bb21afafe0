//! The room that a judge is lent: how many reference rows, pin rows and identities.

use std::fmt::{self, Display, Formatter};

#[derive(Clone, Copy, Debug, PartialEq, Eq)]
pub struct Room {
    pub references: usize,
    pub pins: usize,
    pub identities: usize,
}

/// What the program lends.
pub const LENT: Room = Room {
    references: 1_024,
    pins: 256,
    identities: 1_024,
};

impl Room {
    /// The room that three numbers on a command line stand for.
    pub fn of(references: &str, pins: &str, identities: &str) -> Option<Room> {
        Some(Room {
            references: references.parse().ok()?,
            pins: pins.parse().ok()?,
            identities: identities.parse().ok()?,
        })
    }
}

/// The three numbers on a command line.
impl Display for Room {
    fn fmt(&self, out: &mut Formatter) -> fmt::Result {
        let Room {
            references,
            pins,
            identities,
        } = self;
        write!(out, "{references} {pins} {identities}")
    }
}
