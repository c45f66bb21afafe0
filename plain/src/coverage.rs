//! What a set of steps brings up: lines accepted, functions called, numbers in unused places, handles of each standing in places
//! that have a class, identities of each fit, each refusal by its cause, lines about the longest, each rule by line letter and place, attached threads, twins; and
//! what leak lists bring up: each rule by the kind of leak, refusals, what orders two leaks.

mod attached;
mod identities;
pub mod twins;

use crate::class::{CLASS, STRING, THROWABLE};
use crate::facts::*;
use crate::findings::Findings;
use crate::form::{form, with_fields, Form, FORMS};
use crate::judge::Judge;
use crate::lent::book::{Fault, Top};
use crate::lent::classes::is_reserved;
use crate::lent::leaks::Leak;
use crate::lent::lookup::{Handles, Identities};
use crate::lent::references::HANDLE;
use crate::lent::rows::THREAD;
use crate::lent::Tables;
use crate::limits::*;
use crate::line::{self, Event};
use crate::refusal::*;
use crate::room::Room;
use crate::standing::Standing;
use std::collections::BTreeMap;
use std::fmt;

/// The causes of refusals from a start, but for those that every line has.
const CAUSES: [(Refusal, &str); 47] = [
    (NO_LINE, "long"),
    (NO_LINE, "no LF"),
    (MALFORMED, NO_LETTER),
    (OUT_OF_STEP, "N"),
    (OUT_OF_STEP, "N over attached"),
    (OUT_OF_STEP, "X"),
    (OUT_OF_STEP, "X over attached"),
    (OUT_OF_STEP, "C"),
    (OUT_OF_STEP, "R"),
    (OUT_OF_STEP, "R over attached"),
    (OUT_OF_STEP, "A over native"),
    (OUT_OF_STEP, "A over attached"),
    (OUT_OF_STEP, "A over call"),
    (OUT_OF_STEP, "D over nothing"),
    (OUT_OF_STEP, "D over native"),
    (OUT_OF_STEP, "D over call"),
    (OUT_OF_STEP, "after Z"),
    (WRONG_ENV, "N changed"),
    (WRONG_ENV, "N shared"),
    (WRONG_ENV, "A changed"),
    (WRONG_ENV, "A shared"),
    (ALREADY_ALIVE, "N alive"),
    (ALREADY_ALIVE, "N twice"),
    (ALREADY_ALIVE, "R"),
    (WRONG_CLASS, "K declared"),
    (WRONG_CLASS, "K reserved"),
    (WRONG_CLASS, "K of itself"),
    (WRONG_CLASS, "K super"),
    (WRONG_CLASS, "O class"),
    (WRONG_CLASS, "M class"),
    (NOT_ALIVE, "O null"),
    (NOT_ALIVE, "O identity"),
    (NOT_ALIVE, "O another's local"),
    (NOT_ALIVE, "O local"),
    (NOT_ALIVE, "O global"),
    (NOT_ALIVE, "O weak"),
    (OUT_OF_STEP, "A or D after Z"),
    (OUT_OF_STEP, "K after Z"),
    (OUT_OF_STEP, "O after Z"),
    (OUT_OF_STEP, "M after Z"),
    (NO_ROOM, "N handles"),
    (NO_ROOM, "N items"),
    (NO_ROOM, "N frames"),
    (NO_ROOM, "R handles"),
    (NO_ROOM, "R buffers"),
    (NO_ROOM, "R frames"),
    (NO_ROOM, "M identities"),
];

/// Those that come up over foreign tables alone; line 1,000,001 from a start is left to a trace of its own.
const FOREIGN_CAUSES: [(Refusal, &str); 13] = [
    (NO_LINE, "lines"),
    (NO_ROOM, "C items"),
    (NO_ROOM, "C items over attached"),
    (NO_ROOM, "A frames"),
    (UNFIT_TABLES, "short"),
    (UNFIT_TABLES, "classes"),
    (UNFIT_TABLES, "lines"),
    (UNFIT_TABLES, "items"),
    (UNFIT_TABLES, "frames"),
    (UNFIT_TABLES, "natives"),
    (UNFIT_TABLES, "natives and attached"),
    (UNFIT_TABLES, "no frame"),
    (UNFIT_TABLES, "monitors"),
];

/// The cause of a refusal that has several; it need not come up.
const SEVERAL: &str = "several";
/// What stands for the letter of a line that has none of the letters.
const NO_LETTER: &str = "letter";

/// The rules, places and line letters of all findings there can be.
const BREACHES: [(u8, u8, &str); 31] = [
    (1, 0, "C"),
    (2, 0, "C"),
    (3, 0, "C"),
    (3, 0, "X"),
    (3, 0, "D"),
    (4, 1, "C"),
    (4, 1, "X"),
    (4, 2, "C"),
    (4, 3, "C"),
    (5, 2, "C"),
    (5, 3, "C"),
    (6, 2, "C"),
    (7, 1, "C"),
    (7, 2, "C"),
    (7, 3, "C"),
    (8, 0, "Z"),
    (8, 2, "C"),
    (9, 0, "C"),
    (9, 0, "D"),
    (9, 0, "Z"),
    (10, 0, "Z"),
    (10, 1, "C"),
    (10, 1, "X"),
    (10, 2, "C"),
    (10, 3, "C"),
    (11, 0, "C"),
    (11, 0, "R"),
    (11, 1, "C"),
    (11, 1, "X"),
    (11, 2, "C"),
    (11, 3, "C"),
];

/// How the class stated of a handle can stand to that of its place from a start.
const STANDINGS: [&str; 4] = ["unstated", "itself", "below", "another"];

/// How it can stand to it over foreign tables alone.
const FOREIGN_STANDINGS: [&str; 2] = ["lost", "circle"];

/// The rules and kinds of leaks from a start.
const LEAKS: [(u8, &str); 4] = [
    (8, "ordinary"),
    (8, "critical"),
    (10, "global"),
    (10, "weak"),
];

/// The kind of a leak over foreign tables alone: a row of thread 0 whose handle is neither.
const FOREIGN_LEAK: (u8, &str) = (10, "neither");

/// What tells two leaks that follow each other apart in their order; from a start it is the line.
const ORDERS: [&str; 3] = ["line", "rule", "row"];

#[derive(Clone, Copy, Debug, PartialEq, Eq, PartialOrd, Ord)]
enum What {
    Start,
    /// A trace that was not refused, by how it ended.
    Ended(&'static str),
    Accepted(&'static str),
    Called(u32),
    /// A function, and an unused place of it that had a number, for which the line was refused.
    Unused(u32, usize),
    /// A function, a place of it for which a class is fixed, and how that stated of a handle alive there stands to it.
    Classed(u32, usize, &'static str),
    /// The same by the fixed class, whatever the place.
    OfClass(Class, &'static str),
    /// A function, and how what is stated of its identity fits what it wants.
    Identity(u32, &'static str),
    /// The same by what is wanted, whatever the function.
    OfWanted(&'static str, &'static str),
    /// How an identity is stated and looked for.
    Identified(&'static str),
    Refused(Refusal, &'static str),
    /// The refusal of a line that is just as long as may be, or one byte longer.
    Long(Refusal),
    /// What an attached thread shows.
    Attached(&'static str),
    /// A line letter, and the function of the marked item over which it comes.
    Marked(&'static str, Word),
    /// What is a twin, or has one.
    Twin(&'static str),
    /// A rule, a place and a line letter.
    Found(u8, u8, &'static str),
    /// A leak list without any leak.
    NoLeak,
    /// A rule and a kind of leak.
    Leaked(u8, &'static str),
    Ordered(&'static str),
    Unlisted(Refusal),
}

/// Counts of what came up; what can come up and did not stands there with 0.
#[derive(Clone, Debug)]
pub struct Coverage(BTreeMap<What, u64>);

impl Coverage {
    /// Of whole traces.
    pub fn of_traces() -> Coverage {
        Coverage::of(in_traces())
    }

    /// Of whole traces and their leak lists.
    pub fn of_traces_and_lists() -> Coverage {
        let in_lists = in_lists(&LEAKS, &ORDERS[..1], &[OUT_OF_STEP]);
        Coverage::of(in_traces().chain(in_lists))
    }

    /// Of steps and leak lists over foreign tables.
    pub fn of_foreign() -> Coverage {
        let leaks = [&LEAKS[..], &[FOREIGN_LEAK]].concat();
        let in_lists = in_lists(&leaks, &ORDERS, &[UNFIT_TABLES, OUT_OF_STEP, NO_ROOM]);
        let also = [What::Start, What::Twin(twins::LINES)];
        let also = in_foreign(&attached::LETTERS).chain(also);
        Coverage::of(also.chain(in_lists))
    }

    /// Of the lines of pieces over foreign tables, of which each has at most one that is refused.
    pub fn of_foreign_pieces() -> Coverage {
        Coverage::of(in_foreign(&attached::LETTERS[..1]))
    }

    /// What can come up everywhere, and this.
    fn of(also: impl IntoIterator<Item = What>) -> Coverage {
        let accepted = FORMS.iter().map(|form| What::Accepted(form.name()));
        let called = (FIRST_FUNCTION..=LAST_FUNCTION).map(What::Called);
        let malformed = FORMS
            .iter()
            .map(|form| What::Refused(MALFORMED, form.name()));
        let with_fields = with_fields().into_iter();
        let out_of_range = with_fields.map(|form| What::Refused(OUT_OF_RANGE, form.name()));
        let causes = CAUSES.map(|(refusal, cause)| What::Refused(refusal, cause));
        let found = BREACHES.map(|(rule, place, letter)| What::Found(rule, place, letter));
        let all = accepted.chain(called).chain(malformed).chain(out_of_range);
        let long = [NO_LINE, MALFORMED, OUT_OF_RANGE].map(What::Long);
        let attached = attached::SHOWN.map(What::Attached);
        let twins = twins::NAMED.map(What::Twin);
        let identified = identities::SHOWN.map(What::Identified);
        let all = all
            .chain(causes)
            .chain(long)
            .chain(found)
            .chain(attached)
            .chain(twins)
            .chain(identified)
            .chain(also);
        Coverage(all.map(|what| (what, 0)).collect())
    }

    pub fn add_start(&mut self) {
        self.count(What::Start);
    }

    /// Adds what a line shows of attached threads and identities that is to be stepped over these tables.
    pub fn look(&mut self, tables: &Tables, line: &[u8]) {
        let is_full = || tables.book.lines() == MOST_LINES.into();
        let Ok(event) = line::read(line) else {
            return;
        };
        if tables.is_unfit() || is_full() || tables.book.is_closed() {
            return;
        }
        if let Some(function) = attached::of_marked(&tables.book, &event) {
            self.count_wanted(What::Marked(letter(line), function));
        }
        if grounds(tables, &event).is_empty() {
            for shown in attached::of_accepted(tables, &event) {
                self.count_wanted(What::Attached(shown));
            }
            for shown in identities::of_accepted(tables, &event) {
                self.count_wanted(What::Identified(shown));
            }
            if let Some((function, fit)) = identities::fit(tables, &event) {
                self.count_wanted(What::Identity(function, fit));
                self.count_wanted(What::OfWanted(identities::wanted(function), fit));
            }
        }
    }

    /// Adds a step that has left these tables.
    pub fn add(&mut self, tables: &Tables, line: &[u8], stepped: &Result<Findings, Refusal>) {
        match stepped {
            Ok(findings) => {
                self.count(What::Accepted(letter(line)));
                let event = line::read(line).expect("an accepted line");
                if let Event::C {
                    thread,
                    function,
                    places,
                    ..
                } = event
                {
                    self.count(What::Called(function));
                    self.add_classes(tables, thread, function, places);
                }
                for twin in twins::of_accepted(tables, &event, findings) {
                    self.count_wanted(What::Twin(twin));
                }
                for found in findings.iter() {
                    self.count(What::Found(found.rule, found.place, letter(line)));
                }
            }
            // A refused line has left the tables as they were.
            Err(refusal) => {
                self.count(What::Refused(*refusal, cause(tables, line, *refusal)));
                if let Some((function, place)) = sole_unused(line) {
                    self.count_wanted(What::Unused(function, place));
                }
                if let [body @ .., b'\n'] = line {
                    if (MOST_BYTES..=MOST_BYTES + 1).contains(&body.len()) {
                        self.count_wanted(What::Long(*refusal));
                    }
                }
                if let Ok(event) = line::read(line) {
                    for twin in twins::of_refused(tables, &event, *refusal) {
                        self.count_wanted(What::Twin(twin));
                    }
                }
            }
        }
    }

    /// Adds the standings of the handles alive in places that have a class; no call of a function with such places ends a handle.
    fn add_classes(&mut self, tables: &Tables, thread: u32, function: u32, places: [Handle; 3]) {
        for (place, class) in known(function).classes.into_iter().enumerate() {
            let stated = tables.references.stated_class(thread, places[place]);
            if let (Some(class), Some(stated)) = (class, stated.filter(|_| places[place] % 4 != 0))
            {
                let standing = Standing::of(&tables.classes, stated, class).name();
                self.count_wanted(What::Classed(function, place, standing));
                self.count_wanted(What::OfClass(class, standing));
            }
        }
    }

    /// Adds what a judge with this room says of a trace; the judge as it is then.
    pub fn add_trace(&mut self, trace: &[u8], room: Room) -> Judge {
        let mut judge = Judge::new(room);
        for line in trace.split_inclusive(|&byte| byte == b'\n') {
            self.look(&judge.tables(), line);
            let stepped = judge.step(line);
            self.add(&judge.tables(), line, &stepped);
            if stepped.is_err() {
                return judge;
            }
        }
        let is_closed = judge.tables().book.is_closed();
        self.count(What::Ended(if is_closed { "closed" } else { "open" }));
        judge
    }

    /// Adds a leak list, or its refusal.
    pub fn add_list(&mut self, listed: &Result<Vec<Leak>, Refusal>) {
        match listed {
            Err(refusal) => self.count(What::Unlisted(*refusal)),
            Ok(leaks) if leaks.is_empty() => self.count(What::NoLeak),
            Ok(leaks) => {
                for leak in leaks {
                    self.count(What::Leaked(leak.rule, kind(leak)));
                }
                for pair in leaks.windows(2) {
                    self.count(What::Ordered(order(&pair[0], &pair[1])));
                    if twins::of_lines(&pair[0], &pair[1]) {
                        self.count_wanted(What::Twin(twins::LINES));
                    }
                }
            }
        }
    }

    /// Whether everything came up that can.
    pub fn is_whole(&self) -> bool {
        self.0.values().all(|&count| count > 0)
    }

    fn count(&mut self, what: What) {
        *self.0.entry(what).or_default() += 1;
    }

    /// Counts it where it is of what can come up here.
    fn count_wanted(&mut self, what: What) {
        if let Some(count) = self.0.get_mut(&what) {
            *count += 1;
        }
    }
}

impl fmt::Display for Coverage {
    /// Each sort with its sum, and the counts of its parts; of functions and places, how many came up of all.
    fn fmt(&self, out: &mut fmt::Formatter) -> fmt::Result {
        let mut sorts: Vec<(String, Vec<u64>, Vec<String>)> = Vec::new();
        for (what, count) in &self.0 {
            let (sort, part) = match what {
                What::Start => ("starts".to_string(), None),
                What::Ended(how) => ("ended".to_string(), Some(how.to_string())),
                What::Accepted(letter) => ("accepted".to_string(), Some(letter.to_string())),
                What::Called(_) => ("called".to_string(), None),
                What::Unused(..) => ("in unused places".to_string(), None),
                What::Classed(..) => ("in places with a class".to_string(), None),
                What::OfClass(class, standing) => {
                    let sort = format!("in places with class {class}");
                    (sort, Some(standing.to_string()))
                }
                What::Identity(..) => ("in places for identities".to_string(), None),
                What::OfWanted(wanted, fit) => (format!("for {wanted}"), Some(format!("{fit}:"))),
                What::Identified(what) => ("identities".to_string(), Some(format!("{what}:"))),
                What::Refused(refusal, cause) => {
                    (format!("refusal {refusal}"), Some(cause.to_string()))
                }
                What::Long(refusal) => (
                    "about the longest line".to_string(),
                    Some(format!("with {refusal}:")),
                ),
                What::Attached(what) => ("attached".to_string(), Some(format!("{what}:"))),
                What::Marked(letter, function) => (
                    "over marked items".to_string(),
                    Some(format!("{letter} with {function}:")),
                ),
                What::Twin(what) => ("twins".to_string(), Some(format!("{what}:"))),
                What::Found(rule, place, letter) => {
                    (format!("rule {rule}"), Some(format!("{letter}@{place}")))
                }
                What::NoLeak => ("lists without a leak".to_string(), None),
                What::Leaked(rule, kind) => {
                    (format!("leaks of rule {rule}"), Some(kind.to_string()))
                }
                What::Ordered(by) => ("leaks in order".to_string(), Some(format!("by {by}"))),
                What::Unlisted(refusal) => {
                    let sort = "lists refused".to_string();
                    (sort, Some(format!("with {refusal}:")))
                }
            };
            if sorts.last().is_none_or(|(last, ..)| *last != sort) {
                sorts.push((sort, Vec::new(), Vec::new()));
            }
            let (_, counts, parts) = sorts.last_mut().expect("a sort");
            counts.push(*count);
            parts.extend(part.map(|part| format!("{part} {count}")));
        }
        let told = sorts.iter().map(|(sort, counts, parts)| {
            let sum: u64 = counts.iter().sum();
            let came_up = counts.iter().filter(|&&count| count > 0).count();
            match (&parts[..], counts.len()) {
                ([], 1) => format!("{sort}: {sum}"),
                ([], all) => format!("{sort}: {sum} ({came_up} of {all})"),
                (parts, _) => format!("{sort}: {sum} ({})", parts.join(", ")),
            }
        });
        write!(out, "{}", told.collect::<Vec<_>>().join("; "))
    }
}

/// What comes up in whole traces alone.
fn in_traces() -> impl Iterator<Item = What> {
    let functions = FIRST_FUNCTION..=LAST_FUNCTION;
    let unused = functions.flat_map(|function| {
        let places = known(function).places.into_iter().enumerate();
        let unused = places.filter(|place| place.1 == PlaceKind::Unused);
        unused.map(move |(place, _)| What::Unused(function, place))
    });
    let ended = [What::Ended("open"), What::Ended("closed")];
    let attached = attached::IN_TRACES.map(What::Attached);
    let identified = identities::fits().map(|(function, fit)| What::Identity(function, fit));
    let all = unused.chain(classed()).chain(ended).chain(attached);
    all.chain(identified)
}

/// What comes up over foreign tables alone, lines of these letters over marked items.
fn in_foreign(letters: &'static [&str]) -> impl Iterator<Item = What> {
    let causes = FOREIGN_CAUSES.map(|(refusal, cause)| What::Refused(refusal, cause));
    let classes = [CLASS, STRING, THROWABLE].into_iter().flat_map(|class| {
        let standings = STANDINGS.into_iter().chain(FOREIGN_STANDINGS);
        standings.map(move |standing| What::OfClass(class, standing))
    });
    let attached = attached::FOREIGN.map(What::Attached);
    let marked = letters
        .iter()
        .flat_map(|letter| attached::FUNCTIONS.map(|function| What::Marked(letter, function)));
    let columns = twins::COLUMNS.map(What::Twin);
    let fits = identities::foreign_fits().map(|(wanted, fit)| What::OfWanted(wanted, fit));
    let identified = identities::FOREIGN.map(What::Identified);
    let all = causes.into_iter().chain(classes).chain(attached);
    let all = all.chain(marked).chain(columns);
    all.chain(fits).chain(identified)
}

/// Each place that has a class, with a handle of each standing from a start.
fn classed() -> impl Iterator<Item = What> {
    let functions = FIRST_FUNCTION..=LAST_FUNCTION;
    functions.flat_map(|function| {
        let classes = known(function).classes.into_iter().enumerate();
        let places = classes.filter(|(_, class)| class.is_some());
        places.flat_map(move |(place, _)| {
            STANDINGS.map(|standing| What::Classed(function, place, standing))
        })
    })
}

/// What comes up in leak lists: these kinds of leaks, orders and refusals.
fn in_lists(
    leaks: &[(u8, &'static str)],
    orders: &[&'static str],
    refusals: &[Refusal],
) -> Vec<What> {
    let leaks = leaks.iter().map(|&(rule, kind)| What::Leaked(rule, kind));
    let orders = orders.iter().map(|by| What::Ordered(by));
    let refusals = refusals.iter().map(|&refusal| What::Unlisted(refusal));
    let all = leaks.chain(orders).chain(refusals);
    all.chain([What::NoLeak]).collect()
}

fn kind(leak: &Leak) -> &'static str {
    match (leak.rule, leak.value % 4) {
        (8, _) if leak.thread == 0 => "ordinary",
        (8, _) => "critical",
        (_, GLOBAL) => "global",
        (_, WEAK) => "weak",
        _ => FOREIGN_LEAK.1,
    }
}

/// What tells a leak from the next one in their order.
fn order(leak: &Leak, next: &Leak) -> &'static str {
    match (leak.line == next.line, leak.rule == next.rule) {
        (false, _) => "line",
        (true, false) => "rule",
        (true, true) => "row",
    }
}

fn letter(line: &[u8]) -> &'static str {
    let form = line.first().and_then(|&letter| form(letter));
    form.map_or(NO_LETTER, Form::name)
}

/// The function of a call and its unused place, if a number there is all that is wrong with the line.
fn sole_unused(line: &[u8]) -> Option<(u32, usize)> {
    let fields: Vec<&str> = std::str::from_utf8(line).ok()?.split('\t').collect();
    let &["C", _, _, function, a, b, c, _] = &fields[..] else {
        return None;
    };
    let function = function.parse().ok()?;
    let places = facts(function)?.places.into_iter().zip([a, b, c]);
    let is_sole = |(place, (kind, number)): (usize, (PlaceKind, &str))| {
        let mut mended = fields.clone();
        mended[4 + place] = "0";
        let is_mended = line::read(mended.join("\t").as_bytes()).is_ok();
        let is_sole =
            kind == PlaceKind::Unused && number.parse::<Handle>().is_ok_and(|number| number != 0);
        (is_sole && is_mended).then_some((function, place))
    };
    places.enumerate().find_map(is_sole)
}

/// Why the line is refused with this number over these tables.
fn cause(tables: &Tables, line: &[u8], refusal: Refusal) -> &'static str {
    match (refusal, line::read(line)) {
        (UNFIT_TABLES, _) => fault(tables),
        (NO_LINE, _) if line.len() > MOST_BYTES + 1 => "long",
        (NO_LINE, Err(NO_LINE)) => "no LF",
        (NO_LINE, _) => "lines",
        (_, Ok(event)) => sole(&grounds(tables, &event), refusal),
        _ => letter(line),
    }
}

/// All that speaks against an event over these tables: refusals 4 to 7, 9 and 10 with their causes, in the order in which they are tested.
pub fn grounds(tables: &Tables, event: &Event) -> Vec<(Refusal, &'static str)> {
    let (book, references) = (&tables.book, &tables.references);
    let is_native = |thread| book.top(thread) == Top::Native;
    let is_attached = |thread| book.top(thread) == Top::Attached;
    let is_changed = |thread, env| ![0, env].contains(&book.env(thread));
    let is_shared = |thread, env| {
        let mut others = (1..=THREADS).filter(|&other| other != thread);
        others.any(|other| book.env(other) == env)
    };
    let is_full = |thread| book.items(thread) == MOST_ITEMS;
    let mut grounds = match *event {
        Event::N {
            thread,
            env,
            count,
            handles,
        } => {
            let named = &handles[..count];
            let is_alive = |&handle: &Handle| references.is_alive(thread, handle);
            let is_twice = |index: usize| named[..index].contains(&named[index]);
            vec![
                (OUT_OF_STEP, "N", is_native(thread)),
                (OUT_OF_STEP, "N over attached", is_attached(thread)),
                (WRONG_ENV, "N changed", is_changed(thread, env)),
                (WRONG_ENV, "N shared", is_shared(thread, env)),
                (ALREADY_ALIVE, "N alive", named.iter().any(is_alive)),
                (ALREADY_ALIVE, "N twice", (0..count).any(is_twice)),
                (NO_ROOM, "N handles", count > references.rows.free()),
                (NO_ROOM, "N items", is_full(thread)),
                (NO_ROOM, "N frames", book.frames(thread) == MOST_FRAMES),
            ]
        }
        Event::X { thread, .. } => {
            let over_attached = is_attached(thread);
            let over_other = !is_native(thread) && !over_attached;
            vec![
                (OUT_OF_STEP, "X", over_other),
                (OUT_OF_STEP, "X over attached", over_attached),
            ]
        }
        Event::C { thread, .. } => {
            let (native, attached) = (is_native(thread), is_attached(thread));
            let over_attached = attached && is_full(thread);
            vec![
                (OUT_OF_STEP, "C", !native && !attached),
                (NO_ROOM, "C items", native && is_full(thread)),
                (NO_ROOM, "C items over attached", over_attached),
            ]
        }
        Event::R {
            thread,
            function,
            result,
            ..
        } => {
            let is_open =
                matches!(book.top(thread), Top::Call { function: open, .. } if open == function);
            let made = line::made(result);
            let (makes, gets, pushes) = match known(function).result {
                ResultKind::Local | ResultKind::Global | ResultKind::Weak => {
                    (made != 0, false, false)
                }
                ResultKind::Buffer(_) => (false, made != 0, false),
                _ => (false, false, function == PUSH_LOCAL_FRAME && result == 0),
            };
            let is_deepest = book.frames(thread) == MOST_FRAMES;
            vec![
                (OUT_OF_STEP, "R", !is_open && !is_attached(thread)),
                (OUT_OF_STEP, "R over attached", is_attached(thread)),
                (
                    ALREADY_ALIVE,
                    "R",
                    makes && references.is_alive(thread, made),
                ),
                (NO_ROOM, "R handles", makes && references.rows.free() == 0),
                (NO_ROOM, "R buffers", gets && tables.pins.rows.free() == 0),
                (NO_ROOM, "R frames", pushes && is_deepest),
            ]
        }
        Event::A { thread, env } => {
            let over = match book.top(thread) {
                Top::Nothing => None,
                Top::Native => Some("A over native"),
                Top::Attached => Some("A over attached"),
                Top::Call { .. } => Some("A over call"),
            };
            vec![
                (OUT_OF_STEP, over.unwrap_or_default(), over.is_some()),
                (WRONG_ENV, "A changed", is_changed(thread, env)),
                (WRONG_ENV, "A shared", is_shared(thread, env)),
                (NO_ROOM, "A frames", book.frames(thread) == MOST_FRAMES),
            ]
        }
        Event::D { thread } => {
            let over = match book.top(thread) {
                Top::Nothing => Some("D over nothing"),
                Top::Native => Some("D over native"),
                Top::Attached => None,
                Top::Call { .. } => Some("D over call"),
            };
            vec![(OUT_OF_STEP, over.unwrap_or_default(), over.is_some())]
        }
        Event::K { class, superclass } => against_declaration(tables, class, superclass),
        Event::O {
            thread,
            handle,
            class,
        } => against_statement(tables, thread, handle, class),
        Event::M {
            identity, class, ..
        } => {
            let has_room = tables.identities.has_room_for(identity);
            vec![
                (WRONG_CLASS, "M class", !tables.classes.is_known(class)),
                (NO_ROOM, "M identities", !has_room),
            ]
        }
        Event::Z => Vec::new(),
    };
    if book.is_closed() {
        grounds.retain(|ground| ground.0 != OUT_OF_STEP);
        let cause = match event {
            Event::A { .. } | Event::D { .. } => "A or D after Z",
            Event::K { .. } => "K after Z",
            Event::O { .. } => "O after Z",
            Event::M { .. } => "M after Z",
            _ => "after Z",
        };
        grounds.insert(0, (OUT_OF_STEP, cause, true));
    }
    let held = grounds.into_iter().filter(|ground| ground.2);
    held.map(|(refusal, cause, _)| (refusal, cause)).collect()
}

fn against_declaration(
    tables: &Tables,
    class: Class,
    superclass: Class,
) -> Vec<(Refusal, &'static str, bool)> {
    let is_known = |class| tables.classes.is_known(class);
    let is_reserved = is_reserved(class);
    let is_of_itself = class == superclass;
    let is_below_nothing = !is_known(superclass);
    vec![
        (WRONG_CLASS, "K declared", is_known(class) && !is_reserved),
        (WRONG_CLASS, "K reserved", is_reserved),
        (WRONG_CLASS, "K of itself", is_below_nothing && is_of_itself),
        (WRONG_CLASS, "K super", is_below_nothing && !is_of_itself),
    ]
}

fn against_statement(
    tables: &Tables,
    thread: u32,
    handle: Handle,
    class: Class,
) -> Vec<(Refusal, &'static str, bool)> {
    let references = &tables.references;
    let own = Number::from(thread);
    let is_others = references
        .rows
        .has(|row| row[HANDLE] == handle && row[THREAD] != own);
    let (cause, is_alive) = match handle % 4 {
        _ if handle == 0 => ("O null", false),
        0 => ("O identity", false),
        kind => {
            let cause = match kind {
                LOCAL if is_others => "O another's local",
                LOCAL => "O local",
                GLOBAL => "O global",
                _ => "O weak",
            };
            (cause, references.is_alive(thread, handle))
        }
    };
    vec![
        (WRONG_CLASS, "O class", !tables.classes.is_known(class)),
        (NOT_ALIVE, cause, !is_alive),
    ]
}

/// What makes the tables unfit: the faults of the book, or a short class table.
fn fault(tables: &Tables) -> &'static str {
    match tables.book.faults()[..] {
        [] => "classes",
        _ if tables.classes.is_short() => SEVERAL,
        [Fault::Short] => "short",
        [Fault::Lines] => "lines",
        [Fault::Items] => "items",
        [Fault::Frames] => "frames",
        [Fault::Natives] if attached::makes_unfit(&tables.book) => "natives and attached",
        [Fault::Natives] => "natives",
        [Fault::ItemsWithoutFrame] => "no frame",
        [Fault::Monitors] => "monitors",
        _ => SEVERAL,
    }
}

/// The one cause of this refusal.
fn sole(grounds: &[(Refusal, &'static str)], refusal: Refusal) -> &'static str {
    let mut causes = grounds.iter().filter(|ground| ground.0 == refusal);
    match (causes.next(), causes.next()) {
        (Some((_, cause)), None) => cause,
        _ => SEVERAL,
    }
}
