//! What identities show: how what is stated of each fits what is wanted, and what an earlier statement would have told.

use crate::facts::{known, ResultKind};
use crate::fit::Fit;
use crate::identity::{Stated, Wanted};
use crate::lent::classes::is_reserved;
use crate::lent::identities::IDENTITY;
use crate::lent::Tables;
use crate::limits::{Handle, THREADS};
use crate::line::{self, Event};
use crate::twin::are_twins;
use std::collections::{BTreeMap, BTreeSet};

#[derive(Default)]
pub struct Identified {
    /// All that was stated of each identity, the last at the end.
    stated: BTreeMap<Handle, Vec<Stated>>,
    /// Those that functions gave.
    given: BTreeSet<Handle>,
}

impl Identified {
    /// What a place shows in which an identity stands.
    pub fn place(&self, wanted: Wanted, place: usize, identity: Handle) -> Vec<String> {
        let all = self.stated.get(&identity).map_or(&[][..], Vec::as_slice);
        let fit = |stated: Option<&Stated>| Fit::of(wanted, stated.copied());
        let rule = |stated| fit(stated).rule(wanted);
        let (now, name) = (rule(all.last()), fit(all.last()).name());
        let former = all.len().checked_sub(2).map(|index| rule(all.get(index)));
        let first = rule(all.first());
        let given = self.given.contains(&identity);
        let is_twin = |&&other: &&Handle| are_twins(other, identity);
        let twin = self.stated.keys().find(is_twin);
        let twin = twin.map(|twin| rule(self.stated[twin].last()) == 0);
        let letters = wanted.letters();
        vec![
            format!("i: {letters}, {name}"),
            format!("i: place {}, {name}", place + 1),
            format!("i: rule {now}, by the former {former:?}"),
            format!("i: rule {now}, by the first {first}"),
            format!("i: rule {now}, given by a function {given}"),
            format!("i: rule {now}, by a twin {twin:?}"),
        ]
    }

    /// What an accepted M shows.
    pub fn statement(&self, tables: &Tables, event: &Event) -> Vec<String> {
        let &Event::M {
            identity,
            sort,
            class,
            is_static,
            is_final,
        } = event
        else {
            return Vec::new();
        };
        let again = self.stated.contains_key(&identity);
        let reserved = is_reserved(class);
        let items = (1..=THREADS).any(|thread| tables.book.items(thread) > 0);
        let places = &tables.identities;
        let free = places.all().iter().filter(|place| place[IDENTITY] == 0);
        let free = super::few(free.count());
        let own = places.own(identity);
        let at = places.find(identity).map(|at| at.cmp(&own));
        vec![
            format!("M: {sort} {is_static} {is_final}, again {again}"),
            format!("M: class reserved {reserved}, again {again}"),
            format!("M: items open {items}"),
            format!("M: {free} free, again {again}"),
            format!("M: place {at:?}, again {again}"),
        ]
    }

    /// Adds an accepted event.
    pub fn add(&mut self, event: &Event) {
        match *event {
            Event::M {
                identity,
                sort,
                is_static,
                is_final,
                ..
            } => self.stated.entry(identity).or_default().push(Stated {
                sort: sort.into(),
                is_static: is_static.into(),
                is_final: is_final.into(),
            }),
            Event::R {
                function, result, ..
            } if known(function).result == ResultKind::Identity => {
                self.given.insert(line::made(result));
            }
            _ => {}
        }
    }
}
