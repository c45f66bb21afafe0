//! Identities in made traces: those that are stated, and those that calls are handed.

use super::Maker;
use crate::fit::Fit;
use crate::identity::{Stated, Wanted, FIELD, METHOD};
use crate::lent::identities::IDENTITY;
use crate::lent::lookup::Identities;
use crate::limits::{Class, Handle};
use crate::line::Event;

impl Maker<'_> {
    /// An M of any sort, of an identity that is new or known.
    pub(super) fn statement(&mut self) -> Event {
        let (identity, class) = (self.number(0), self.known_class());
        self.any_statement(identity, class)
    }

    /// An M that the classes or the room likely forbid.
    pub(super) fn doubtful_statement(&mut self) -> Event {
        let identity = match self.known_identity(|_| true) {
            Some(known) if self.random.percent(30) => known,
            _ => self.number(0),
        };
        let class = if self.random.percent(50) {
            self.class()
        } else {
            self.known_class()
        };
        self.any_statement(identity, class)
    }

    /// The M of an identity such as is wanted, mostly, where none is right and there is room for it.
    pub(super) fn owed(&mut self, wanted: Wanted) -> Option<Event> {
        let is_right = |stated| Fit::of(wanted, Some(stated)) == Fit::Right;
        if self.known_identity(is_right).is_some() || self.random.percent(20) {
            return None;
        }
        let identity = self.number(0);
        let has_room = self.judge.tables().identities.has_room_for(identity);
        let is_static = match wanted.is_static {
            Some(is_static) => is_static.into(),
            None => self.random.between(0, 1),
        };
        has_room.then(|| Event::M {
            identity,
            sort: wanted.sort,
            class: self.known_class(),
            is_static,
            is_final: self.random.percent(15).into(),
        })
    }

    /// An identity for a place: mostly one that is right there, else one of each other fit as often.
    pub(super) fn identity(&mut self, wanted: Wanted) -> Handle {
        let wished = if self.random.percent(65) {
            Fit::Right
        } else {
            self.random.pick(&Fit::FLAGGED)
        };
        let known = self.known_identity(|stated| Fit::of(wanted, Some(stated)) == wished);
        known.unwrap_or_else(|| self.number(0))
    }

    fn any_statement(&mut self, identity: Handle, class: Class) -> Event {
        Event::M {
            identity,
            sort: self.random.between(METHOD, FIELD),
            class,
            is_static: self.random.between(0, 1),
            is_final: self.random.between(0, 1),
        }
    }

    /// An identity of which such is stated, the first from some place on and round.
    fn known_identity(&mut self, is_such: impl Fn(Stated) -> bool) -> Option<Handle> {
        let places = self.judge.tables().identities;
        let start = self.random.below(places.room().max(1));
        let mut around = (start..places.room()).chain(0..start);
        let identity = |at: usize| places.all()[at][IDENTITY];
        let found = around.find(|&at| identity(at) != 0 && is_such(places.stated_at(at)));
        found.map(identity)
    }
}
