//! What comes up of identities: how what M states is kept and looked for, and how it fits what functions want.

use crate::facts::{known, WITH_IDENTITY};
use crate::fit::Fit;
use crate::identity::{Stated, METHOD};
use crate::lent::book::Top;
use crate::lent::identities::{Places, IDENTITY};
use crate::lent::lookup::Identities;
use crate::lent::Tables;
use crate::limits::{Handle, THREADS};
use crate::line::Event;

/// What accepted lines show from a start.
pub const SHOWN: [&str; 13] = [
    "M of a new one",
    "M again, the same",
    "M again, another sort",
    "M again, another static flag",
    "M again, another final flag",
    "M again in a full table",
    "M in the last free place",
    "M behind its own place",
    "M round the end",
    "M in an open call",
    "used at its own place",
    "used behind its own place",
    "used round the end",
];

/// What they show over foreign tables alone.
pub const FOREIGN: [&str; 8] = [
    "used, with room for none",
    "used, with room for one",
    "used, hidden by a free place",
    "used, stated twice",
    "used, nowhere in a full table",
    "M, hidden by a free place",
    "M over what a free place holds",
    "M, with numbers past the last place",
];

/// The fits that each function with an identity can show from a start.
pub fn fits() -> impl Iterator<Item = (u32, &'static str)> {
    WITH_IDENTITY.into_iter().flat_map(|function| {
        let wanted = known(function).wanted().expect("an identity");
        let fits = match wanted.is_static {
            Some(_) => &Fit::FLAGGED[..],
            None => &Fit::UNFLAGGED,
        };
        fits.iter().map(move |fit| (function, fit.name()))
    })
}

/// What the functions want of identities, each with the fits that it is to show over foreign tables.
pub fn foreign_fits() -> impl Iterator<Item = (&'static str, &'static str)> {
    let wanted = WANTED.into_iter();
    wanted.flat_map(|(wanted, function)| {
        let asked = known(function).wanted().expect("an identity");
        let fits = match asked.is_static {
            Some(_) if asked.writes => [&Fit::FLAGGED[..], &Fit::FOREIGN].concat(),
            Some(_) if asked.sort == METHOD => [&Fit::FLAGGED[..], &Fit::FOREIGN[..2]].concat(),
            Some(_) => [&Fit::FLAGGED[..], &Fit::FOREIGN[..1]].concat(),
            None => vec![Fit::Unstated, Fit::Right, Fit::Sort],
        };
        fits.into_iter().map(move |fit| (wanted, fit.name()))
    })
}

/// What a function wants, in words.
pub fn wanted(function: u32) -> &'static str {
    let like = known(function).wanted();
    let mut all = WANTED.into_iter();
    let found = all.find(|&(_, other)| known(other).wanted() == like);
    found.expect("a function with an identity").0
}

/// What is wanted, and the first function that does.
const WANTED: [(&str, u32); 8] = [
    ("any method", 9),
    ("any field", 12),
    ("a method", 28),
    ("a field", 95),
    ("a field to write", 104),
    ("a static method", 114),
    ("a static field", 145),
    ("a static field to write", 154),
];

/// The function of an accepted C that judges an identity, and how that fits.
pub fn fit(tables: &Tables, event: &Event) -> Option<(u32, &'static str)> {
    let (function, identity) = used(event)?;
    let wanted = known(function).wanted()?;
    let stated = tables.identities.stated(identity);
    Some((function, Fit::of(wanted, stated).name()))
}

/// What an event shows that is accepted over these tables.
pub fn of_accepted(tables: &Tables, event: &Event) -> Vec<&'static str> {
    match *event {
        Event::M {
            identity,
            sort,
            is_static,
            is_final,
            ..
        } => {
            let stated = Stated {
                sort: sort.into(),
                is_static: is_static.into(),
                is_final: is_final.into(),
            };
            of_statement(tables, identity, stated)
        }
        _ => used(event).map_or(Vec::new(), |(_, identity)| of_use(tables, identity)),
    }
}

/// The function of a call and the identity that it is judged by.
fn used(event: &Event) -> Option<(u32, Handle)> {
    let &Event::C {
        function, places, ..
    } = event
    else {
        return None;
    };
    let letters = known(function).letters().0;
    let identity = places[letters.find('i')?];
    (identity != 0 && identity.is_multiple_of(4)).then_some((function, identity))
}

fn of_statement(tables: &Tables, identity: Handle, stated: Stated) -> Vec<&'static str> {
    let places = &tables.identities;
    let before = places.stated(identity);
    let is_new = before.is_none();
    let was = before.unwrap_or(stated);
    let is_call = |thread| matches!(tables.book.top(thread), Top::Call { .. });
    let (free, at) = (free(places), places.find(identity).expect("a place"));
    let is_written_over = is_new && places.stated_at(at) != UNSTATED;
    such(&[
        ("M of a new one", is_new),
        ("M again, the same", !is_new && was == stated),
        ("M again, another sort", was.sort != stated.sort),
        (
            "M again, another static flag",
            was.is_static != stated.is_static,
        ),
        (
            "M again, another final flag",
            was.is_final != stated.is_final,
        ),
        ("M again in a full table", !is_new && free == 0),
        ("M in the last free place", is_new && free == 1),
        (
            "M behind its own place",
            is_new && at > places.own(identity),
        ),
        ("M round the end", is_new && at < places.own(identity)),
        ("M in an open call", (1..=THREADS).any(is_call)),
        (
            "M, hidden by a free place",
            is_new && standing(places, identity) > 0,
        ),
        ("M over what a free place holds", is_written_over),
        ("M, with numbers past the last place", places.has_past()),
    ])
}

fn of_use(tables: &Tables, identity: Handle) -> Vec<&'static str> {
    let places = &tables.identities;
    if places.room() == 0 {
        return vec!["used, with room for none"];
    }
    let is_stated = places.stated(identity).is_some();
    let own = places.own(identity);
    let at = places.find(identity);
    let is_at = |is_such: &dyn Fn(usize) -> bool| is_stated && at.is_some_and(is_such);
    such(&[
        ("used at its own place", is_at(&|at| at == own)),
        ("used behind its own place", is_at(&|at| at > own)),
        ("used round the end", is_at(&|at| at < own)),
        ("used, with room for one", places.room() == 1),
        (
            "used, hidden by a free place",
            !is_stated && standing(places, identity) > 0,
        ),
        (
            "used, stated twice",
            is_stated && standing(places, identity) > 1,
        ),
        ("used, nowhere in a full table", at.is_none()),
    ])
}

const UNSTATED: Stated = Stated {
    sort: 0,
    is_static: 0,
    is_final: 0,
};

fn such(shown: &[(&'static str, bool)]) -> Vec<&'static str> {
    let shown = shown.iter().filter(|(_, is_shown)| *is_shown);
    shown.map(|(what, _)| *what).collect()
}

fn free(places: &Places) -> usize {
    standing(places, 0)
}

/// At how many places an identity stands.
fn standing(places: &Places, identity: Handle) -> usize {
    let all = places.all().iter();
    all.filter(|place| place[IDENTITY] == identity).count()
}
