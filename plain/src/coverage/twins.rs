//! Which twins come up: what a line names while a twin of it is alive, outstanding, stated or an env, and numbers of rows that are twins of the right ones.

use crate::facts::*;
use crate::findings::Findings;
use crate::lent::identities::IDENTITY;
use crate::lent::leaks::Leak;
use crate::lent::lookup::{Handles, Identities};
use crate::lent::pins::{self, BUFFER, FAMILY};
use crate::lent::references::{self, FRAME, HANDLE};
use crate::lent::rows::THREAD;
use crate::lent::Tables;
use crate::limits::{Handle, Number, MOST_CLASSES, THREADS};
use crate::line::{self, Event};
use crate::refusal::{Refusal, NOT_ALIVE, WRONG_ENV};
use crate::twin::{are_twins, HIGH};

/// What is named beside a twin, or instead of one; null's twin is no null.
pub const NAMED: [&str; 17] = [
    "a handle is made beside",
    "a handle is used beside",
    "a handle is used instead",
    "a class is stated beside",
    "a class is stated instead",
    "a buffer is got beside",
    "a buffer is released beside",
    "a buffer is released instead",
    "an env is entered beside",
    "an env is entered instead",
    "an env is attached beside",
    "an env is attached instead",
    "an env is called with instead",
    "an identity is stated beside",
    "an identity is used beside",
    "an identity is used instead",
    "null",
];

/// Columns of rows in which a twin of the right number stands, over foreign tables alone.
pub const COLUMNS: [&str; 4] = [
    "a row's thread",
    "a row's frame",
    "a row's family",
    "a row's class",
];

/// What orders two leaks, over foreign tables alone: lines that would be the other way round if they were cut to 32 bits.
pub const LINES: &str = "lines of leaks";

/// The twins of an accepted event with its findings; it has left these tables.
pub fn of_accepted(tables: &Tables, event: &Event, findings: &Findings) -> Vec<&'static str> {
    match *event {
        Event::N {
            thread,
            env,
            count,
            handles,
        } => {
            let env = has_twin_env(tables, env).then_some("an env is entered beside");
            let made = handles[..count].iter();
            let made = made.filter(|&&handle| has_twin(tables, thread, handle));
            made.map(|_| "a handle is made beside").chain(env).collect()
        }
        Event::X { result, .. } => null(result).collect(),
        Event::C { .. } => of_call(tables, event, findings),
        Event::R {
            thread,
            function,
            result,
            ..
        } => of_answer(tables, thread, function, line::made(result)),
        Event::O { thread, handle, .. } => {
            let beside = has_twin(tables, thread, handle).then_some("a class is stated beside");
            let column = in_thread(tables, thread, handle);
            beside.into_iter().chain(column).collect()
        }
        Event::A { env, .. } => {
            let beside = has_twin_env(tables, env).then_some("an env is attached beside");
            beside.into_iter().collect()
        }
        Event::M { identity, .. } => {
            let is_beside = has_twin_identity(tables, identity);
            let beside = is_beside.then_some("an identity is stated beside");
            beside.into_iter().collect()
        }
        Event::D { .. } | Event::K { .. } | Event::Z => Vec::new(),
    }
}

/// The twins of an event that is refused with this number over these tables.
pub fn of_refused(tables: &Tables, event: &Event, refusal: Refusal) -> Vec<&'static str> {
    let instead = match *event {
        Event::N { thread, env, .. } if refusal == WRONG_ENV => {
            are_twins(tables.book.env(thread), env).then_some("an env is entered instead")
        }
        Event::A { thread, env } if refusal == WRONG_ENV => {
            are_twins(tables.book.env(thread), env).then_some("an env is attached instead")
        }
        Event::O { thread, handle, .. } if refusal == NOT_ALIVE => {
            has_twin(tables, thread, handle).then_some("a class is stated instead")
        }
        _ => None,
    };
    instead.into_iter().collect()
}

/// Whether lines order two leaks, and would not if they were cut to 32 bits.
pub fn of_lines(leak: &Leak, next: &Leak) -> bool {
    leak.line < next.line && leak.line % HIGH > next.line % HIGH
}

fn of_call(tables: &Tables, event: &Event, findings: &Findings) -> Vec<&'static str> {
    let &Event::C {
        thread,
        env,
        function,
        places,
        ..
    } = event
    else {
        return Vec::new();
    };
    let mut seen = Vec::new();
    if are_twins(tables.book.env(thread), env) {
        seen.push("an env is called with instead");
    }
    let facts = known(function);
    for (index, value) in places.into_iter().enumerate() {
        let rule = findings
            .iter()
            .find(|found| usize::from(found.place) == index + 1);
        let rule = rule.map(|found| found.rule);
        seen.extend(null(value));
        match facts.places[index] {
            PlaceKind::Unused => {}
            PlaceKind::Identity(_) => {
                if value.is_multiple_of(4) && has_twin_identity(tables, value) {
                    let stated = tables.identities.stated(value);
                    seen.push(match stated {
                        Some(_) => "an identity is used beside",
                        None => "an identity is used instead",
                    });
                }
            }
            PlaceKind::Buffer(family) => {
                let owner = pins::owner(thread, family);
                let rows = &tables.pins.rows;
                let has = |matches: &dyn Fn(Number, Number) -> bool| {
                    rows.has(|row| row[THREAD] == owner && matches(row[FAMILY], row[BUFFER]))
                };
                let own = Number::from(family.0);
                if has(&|family, buffer| family == own && are_twins(buffer, value)) {
                    seen.push(match rule {
                        Some(_) => "a buffer is released instead",
                        None => "a buffer is released beside",
                    });
                }
                if has(&|family, buffer| are_twins(family, own) && buffer == value) {
                    seen.push("a row's family");
                }
            }
            _ => {
                if has_twin(tables, thread, value) {
                    match rule {
                        Some(10 | 11) => seen.push("a handle is used instead"),
                        Some(_) => {}
                        None => seen.push("a handle is used beside"),
                    }
                }
                seen.extend(in_thread(tables, thread, value));
                let stated = tables.references.stated_class(thread, value);
                let class =
                    stated.filter(|&stated| facts.classes[index].is_some() && stated >= HIGH);
                let is_one = |class: Number| (1..=MOST_CLASSES as Number).contains(&(class % HIGH));
                seen.extend(
                    class
                        .filter(|&class| is_one(class))
                        .map(|_| "a row's class"),
                );
            }
        }
    }
    seen
}

fn of_answer(tables: &Tables, thread: u32, function: u32, made: Handle) -> Vec<&'static str> {
    let result = known(function).result;
    let mut seen = Vec::new();
    match result {
        _ if made == 0 => {}
        ResultKind::Local | ResultKind::Global | ResultKind::Weak => {
            if has_twin(tables, thread, made) {
                seen.push("a handle is made beside");
            }
            let (own, frame) = (Number::from(thread), tables.book.frames(thread) as Number);
            let is_twin =
                |row: &references::Reference| row[THREAD] == own && are_twins(row[FRAME], frame);
            if result == ResultKind::Local && tables.references.rows.has(is_twin) {
                seen.push("a row's frame");
            }
        }
        ResultKind::Buffer(family) => {
            let (owner, family) = (pins::owner(thread, family), Number::from(family.0));
            let is_twin = |row: &pins::Pin| {
                row[THREAD] == owner && row[FAMILY] == family && are_twins(row[BUFFER], made)
            };
            seen.extend(
                tables
                    .pins
                    .rows
                    .has(is_twin)
                    .then_some("a buffer is got beside"),
            );
        }
        ResultKind::Nothing | ResultKind::Identity | ResultKind::Status => {}
    }
    seen
}

/// Whether a twin of an env is a thread's.
fn has_twin_env(tables: &Tables, env: Handle) -> bool {
    (1..=THREADS).any(|other| are_twins(tables.book.env(other), env))
}

/// Whether a twin of a handle is alive; of a local, in its thread.
fn has_twin(tables: &Tables, thread: u32, handle: Handle) -> bool {
    let owner = references::owner(thread, handle);
    let is_twin =
        |row: &references::Reference| row[THREAD] == owner && are_twins(row[HANDLE], handle);
    !handle.is_multiple_of(4) && tables.references.rows.has(is_twin)
}

/// Whether a twin of an identity is stated.
fn has_twin_identity(tables: &Tables, identity: Handle) -> bool {
    let mut places = tables.identities.all().iter();
    places.any(|place| place[IDENTITY] != 0 && are_twins(place[IDENTITY], identity))
}

/// Whether the handle stands in a row of a twin of its thread.
fn in_thread(tables: &Tables, thread: u32, handle: Handle) -> Option<&'static str> {
    let owner = references::owner(thread, handle);
    let is_such =
        |row: &references::Reference| row[HANDLE] == handle && are_twins(row[THREAD], owner);
    (!handle.is_multiple_of(4) && tables.references.rows.has(is_such)).then_some("a row's thread")
}

fn null(value: Handle) -> impl Iterator<Item = &'static str> {
    are_twins(value, 0).then_some("null").into_iter()
}
