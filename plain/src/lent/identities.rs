//! The lent identities, whatever they hold: places of four numbers behind the class table, each free or with what is stated of an identity.

use super::lookup::Identities;
use crate::identity::Stated;
use crate::limits::{Handle, Number, IDENTITY_NUMBERS};

/// The columns of a place; an identity of 0 says that it is free.
pub const IDENTITY: usize = 0;
pub const SORT: usize = 1;
pub const STATIC: usize = 2;
pub const FINAL: usize = 3;

/// A place: identity, sort, static, final.
pub type Place = [Number; IDENTITY_NUMBERS];

pub struct Places<'a> {
    places: &'a mut [Place],
    past: usize,
}

impl<'a> Places<'a> {
    /// Numbers past the last whole place are neither read nor written.
    pub fn new(numbers: &'a mut [Number]) -> Places<'a> {
        let (places, past) = numbers.as_chunks_mut();
        let past = past.len();
        Places { places, past }
    }

    pub fn room(&self) -> usize {
        self.places.len()
    }

    /// Whether there are numbers past the last place.
    pub fn has_past(&self) -> bool {
        self.past > 0
    }

    /// The places, free or not.
    pub fn all(&self) -> &[Place] {
        self.places
    }

    /// The index of the place from which an identity is looked for; there must be room.
    pub fn own(&self, identity: Handle) -> usize {
        (identity / 4 % self.room() as Handle) as usize
    }

    /// The index of the first place that has the identity or is free, from its own place on and round.
    pub fn find(&self, identity: Handle) -> Option<usize> {
        if self.room() == 0 {
            return None;
        }
        let own = self.own(identity);
        let mut around = (own..self.room()).chain(0..own);
        around.find(|&at| [identity, 0].contains(&self.places[at][IDENTITY]))
    }

    /// What is stated at a place.
    pub fn stated_at(&self, at: usize) -> Stated {
        let place = &self.places[at];
        Stated {
            sort: place[SORT],
            is_static: place[STATIC],
            is_final: place[FINAL],
        }
    }

    pub fn put(&mut self, at: usize, identity: Handle, stated: Stated) {
        self.places[at] = [identity, stated.sort, stated.is_static, stated.is_final];
    }
}

impl Identities for Places<'_> {
    fn stated(&self, identity: Handle) -> Option<Stated> {
        let at = self.find(identity)?;
        (self.places[at][IDENTITY] == identity).then(|| self.stated_at(at))
    }

    fn has_room_for(&self, identity: Handle) -> bool {
        self.find(identity).is_some()
    }

    fn state(&mut self, identity: Handle, stated: Stated) {
        let at = self.find(identity).expect("a place for it");
        self.put(at, identity, stated);
    }
}
