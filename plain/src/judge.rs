//! The judge: it owns its tables, takes one line at a time and answers the line's findings or the number of its refusal.

use crate::findings::Findings;
use crate::lent::leaks::Leak;
use crate::lent::lookup::{Lookup, Scan};
use crate::lent::slices::Slices;
use crate::lent::Tables;
use crate::refusal::Refusal;
use crate::room::Room;

/// A judge that scans its rows if nothing else is said.
#[derive(Clone, Debug, PartialEq, Eq)]
pub struct Judge<L = Scan> {
    slices: Slices,
    lookup: L,
}

impl Judge {
    pub fn new(room: Room) -> Judge {
        Judge::with(Scan, room)
    }
}

impl<L: Lookup> Judge<L> {
    /// A judge that finds rows in this way.
    pub fn with(lookup: L, room: Room) -> Judge<L> {
        Judge {
            slices: Slices::new(room),
            lookup,
        }
    }

    /// What the judge knows.
    pub fn tables(&mut self) -> Tables<'_, L::Handles<'_>, L::Buffers<'_>, L::Identities<'_>> {
        self.lookup.tables(self.slices.lend())
    }

    /// The same as it stands in its slices.
    pub fn slices(&self) -> &Slices {
        &self.slices
    }

    /// Judges one lent line; a refused line changes nothing.
    pub fn step(&mut self, line: &[u8]) -> Result<Findings, Refusal> {
        self.tables().step_from_start(line)
    }

    /// The leaks, if Z has come.
    pub fn leaks(&mut self) -> Result<Vec<Leak>, Refusal> {
        self.slices.tables().leaks()
    }
}
