//! Lines to step over foreign tables: those of a trace, damaged and odd ones, and lines aimed at what stands in the tables.

use super::{classes, identities};
use crate::class::{OBJECT, THROWABLE};
use crate::damage::{damage_bytes, damage_fields, odd_line};
use crate::edge::edge_line;
use crate::facts::*;
use crate::fit::Fit;
use crate::identity::{Wanted, FIELD, METHOD};
use crate::lent::book::{Top, OF_NATIVE};
use crate::lent::identities::IDENTITY;
use crate::lent::lookup::Identities;
use crate::lent::pins::{self, Pin, BUFFER, FAMILY};
use crate::lent::references::{self, Reference, CLASS, HANDLE};
use crate::lent::rows::{Rows, THREAD};
use crate::lent::Tables;
use crate::limits::*;
use crate::line::{write, Event};
use crate::random::Random;
use crate::standing::Standing;
use crate::twin::{twin_of, HIGH};

/// The most rows that are looked at for a class.
const MOST_LOOKS: usize = 200;

/// Whether every line is refused over these tables, whatever it says.
pub fn is_over(tables: &Tables) -> bool {
    let book = &tables.book;
    tables.is_unfit() || book.is_closed() || book.lines() == MOST_LINES.into()
}

/// The next line: of the lines that may follow the first is taken out, as long as there are any.
pub fn line(tables: &Tables, follow: &mut Vec<Vec<u8>>, random: &mut Random) -> Vec<u8> {
    match random.below(100) {
        0..3 => odd_line(random),
        3..6 => edge_line(random),
        6..14 => damaged(tables, random),
        14..40 if !follow.is_empty() => follow.remove(0),
        _ => aimed(tables, random),
    }
}

fn damaged(tables: &Tables, random: &mut Random) -> Vec<u8> {
    let line = aimed(tables, random);
    let mut lines = vec![line.clone()];
    if line.contains(&b'\t') && random.percent(50) {
        // What is damaged are lines of some letter, which may be another.
        while lines[0] == line {
            damage_fields(&mut lines, random);
        }
    } else {
        damage_bytes(&mut lines, random);
    }
    lines.swap_remove(0)
}

/// A line that the tables' open items mostly allow, its numbers mostly such as stand in the tables.
fn aimed(tables: &Tables, random: &mut Random) -> Vec<u8> {
    if random.percent(2) {
        return b"Z\n".to_vec();
    }
    let aim = Aim {
        tables,
        is_unfit: tables.is_unfit(),
    };
    let thread = aim.thread(random);
    let mut written = [0; MOST_BYTES + 1];
    let length = loop {
        // A number from the tables may be one that no line can have.
        if let Ok(length) = write(&aim.event(thread, random), &mut written) {
            break length;
        }
    };
    written[..length].to_vec()
}

struct Aim<'a, 'b> {
    tables: &'a Tables<'b>,
    /// Nothing is asked of the book and of the classes then.
    is_unfit: bool,
}

impl Aim<'_, '_> {
    /// One with open items, if some tries give one.
    fn thread(&self, random: &mut Random) -> u32 {
        let mut thread = random.between(1, THREADS);
        for _ in 0..8 {
            if self.top(thread) != Top::Nothing || random.percent(15) {
                break;
            }
            thread = random.between(1, THREADS);
        }
        thread
    }

    fn top(&self, thread: u32) -> Top {
        if self.is_unfit {
            return Top::Nothing;
        }
        self.tables.book.top(thread)
    }

    /// Whether the top item has a function that no native has from a start.
    fn is_odd(&self, thread: u32) -> bool {
        let book = &self.tables.book;
        book.function(thread, book.items(thread) - 1) != OF_NATIVE
    }

    fn event(&self, thread: u32, random: &mut Random) -> Event {
        let choice = random.below(100);
        match self.top(thread) {
            _ if random.percent(8) => self.class_event(thread, random),
            _ if random.percent(6) => self.identify(random),
            _ if choice < 4 => self.enter(thread, random),
            _ if choice < 7 => self.leave(thread, random),
            _ if choice < 10 => self.call(thread, random),
            _ if choice < 13 => self.answer(thread, a_function(random), random),
            _ if choice < 15 => self.attach(thread, random),
            _ if choice < 17 => Event::D { thread },
            Top::Nothing if choice < 40 => self.attach(thread, random),
            Top::Nothing => self.enter(thread, random),
            Top::Native if choice < 20 || choice < 24 && self.is_odd(thread) => Event::D { thread },
            Top::Native if choice < 33 => self.leave(thread, random),
            Top::Attached if choice < 35 => Event::D { thread },
            Top::Native | Top::Attached => self.call(thread, random),
            Top::Call { .. } if choice < 34 => self.enter(thread, random),
            Top::Call { function, .. } if facts(function).is_some() => {
                self.answer(thread, function, random)
            }
            Top::Call { .. } => self.enter(thread, random),
        }
    }

    fn enter(&self, thread: u32, random: &mut Random) -> Event {
        let count = match random.below(4) {
            0 => random.below(MOST_HANDLES + 1),
            _ => random.below(3),
        };
        let mut handles = [0; MOST_HANDLES];
        for handle in &mut handles[..count] {
            *handle = self.handle(thread, random) / 4 * 4 + LOCAL;
        }
        Event::N {
            thread,
            env: self.env(thread, random),
            count,
            handles,
        }
    }

    fn attach(&self, thread: u32, random: &mut Random) -> Event {
        Event::A {
            thread,
            env: self.env(thread, random),
        }
    }

    fn leave(&self, thread: u32, random: &mut Random) -> Event {
        Event::X {
            thread,
            result: self.handle(thread, random),
        }
    }

    fn call(&self, thread: u32, random: &mut Random) -> Event {
        // Now and then the release of what stands in some pin row.
        let pin = match random.below(20) {
            0 | 1 => any_row(&self.tables.pins.rows, random),
            2..=4 => self.pin(thread, random),
            _ => None,
        };
        let family = pin.and_then(|pin| FAMILIES.get(pin[FAMILY] as usize % 256));
        let function = family.map_or_else(|| a_function(random), |&(_, release)| release);
        let facts = known(function);
        let places = [0, 1, 2].map(|index| match (facts.places[index], pin) {
            (PlaceKind::Unused, _) => 0,
            (PlaceKind::Identity(wanted), _) if random.percent(90) => {
                self.identity_for(wanted, random)
            }
            (PlaceKind::Buffer(_), Some(pin)) if random.percent(20) => twin_of(pin[BUFFER], random),
            (PlaceKind::Buffer(_), Some(pin)) => pin[BUFFER],
            (PlaceKind::Buffer(family), None) => self.buffer(thread, family, random),
            _ => self
                .classed(thread, facts.classes[index], random)
                .unwrap_or_else(|| self.handle(thread, random)),
        });
        let capacity = if facts.uses_capacity {
            random.pick(&[i32::MIN, -1, 0, 1, 2, 16, i32::MAX])
        } else {
            0
        };
        Event::C {
            thread,
            env: self.env(thread, random),
            function,
            places,
            capacity,
        }
    }

    fn answer(&self, thread: u32, function: u32, random: &mut Random) -> Event {
        let handle = self.handle(thread, random);
        let null = random.percent(10);
        let result = match known(function).result {
            ResultKind::Status => random.pick(&[0, 0, 0, 0, -1, 1]),
            ResultKind::Nothing => 0,
            _ if null => 0,
            ResultKind::Local => Field::from(handle / 4 * 4 + LOCAL),
            ResultKind::Global => Field::from(handle / 4 * 4 + GLOBAL),
            ResultKind::Weak => Field::from(handle / 4 * 4 + WEAK),
            ResultKind::Identity => Field::from(handle / 4 * 4),
            ResultKind::Buffer(family) => {
                let buffer = random.between(0, 9).into();
                let twin = twin_of(self.buffer(thread, family, random), random);
                random.pick(&[buffer, buffer, buffer, twin]).into()
            }
        };
        Event::R {
            thread,
            function,
            result,
            pending: random.percent(30).into(),
        }
    }

    /// A K, or more often an O.
    fn class_event(&self, thread: u32, random: &mut Random) -> Event {
        if random.percent(40) {
            let class = classes::one(random);
            let superclass = match random.below(8) {
                0 => class,
                _ => classes::one(random),
            };
            return Event::K { class, superclass };
        }
        let alive = if random.percent(60) {
            self.alive(thread, random, |_| true)
        } else {
            None
        };
        let handle = alive.unwrap_or_else(|| self.handle(thread, random));
        Event::O {
            thread,
            handle: match random.below(8) {
                0 => twin_of(handle, random),
                _ => handle,
            },
            class: match random.below(3) {
                0 => random.between(OBJECT, THROWABLE),
                _ => classes::one(random),
            },
        }
    }

    fn identify(&self, random: &mut Random) -> Event {
        Event::M {
            identity: self.identity(random),
            sort: random.between(METHOD, FIELD),
            class: classes::one(random),
            is_static: random.between(0, 1),
            is_final: random.between(0, 1),
        }
    }

    /// Mostly a stated identity, of some fit that only foreign tables have, or of one that few others have.
    fn identity_for(&self, wanted: Wanted, random: &mut Random) -> Handle {
        let places = &self.tables.identities;
        let start = random.below(places.room().max(1));
        let around = (start..places.room()).chain(0..start).take(MOST_LOOKS);
        let around = around.map(|at| places.all()[at][IDENTITY]);
        let stated: Vec<(Fit, Handle)> = around
            .filter(|identity| identity.is_multiple_of(4))
            .filter_map(|identity| places.stated(identity).map(|stated| (stated, identity)))
            .map(|(stated, identity)| (Fit::of(wanted, Some(stated)), identity))
            .collect();
        let alike = |fit: Fit| stated.iter().filter(|(other, _)| *other == fit).count();
        let wished = match wanted.writes && random.percent(60) {
            true => Fit::NoFinal,
            false => random.pick(&Fit::FOREIGN),
        };
        let odd = stated.iter().find(|(fit, _)| *fit == wished);
        let rarest = stated.iter().min_by_key(|(fit, _)| alike(*fit));
        match odd.or(rarest) {
            Some(&(_, identity)) if random.percent(80) => identity,
            _ => self.identity(random),
        }
    }

    /// An identity that stands at some place, its twin, or another that lines name.
    fn identity(&self, random: &mut Random) -> Handle {
        let places = self.tables.identities.all();
        let other = identities::one(random);
        if places.is_empty() || random.percent(25) {
            return other;
        }
        match random.pick(places)[IDENTITY] / 4 * 4 {
            0 => other,
            identity if random.percent(6) => twin_of(identity, random),
            identity => identity,
        }
    }

    /// Mostly the thread's own, or its twin.
    fn env(&self, thread: u32, random: &mut Random) -> Handle {
        let other = random.between(1, THREADS);
        if self.is_unfit || random.percent(8) {
            return 100 * Handle::from(other);
        }
        let of = if random.percent(90) { thread } else { other };
        match self.tables.book.env(of) {
            0 => 100 * Handle::from(thread),
            env if random.percent(8) => twin_of(env, random),
            env => env,
        }
    }

    /// For a place that has a class mostly a handle alive with some class, of each way to stand to it.
    fn classed(&self, thread: u32, fixed: Option<Class>, random: &mut Random) -> Option<Handle> {
        let fixed = fixed.filter(|_| !self.is_unfit && random.percent(80))?;
        let wished = random.pick(&[
            "itself", "below", "below", "another", "lost", "circle", "circle",
        ]);
        let standing = |class| Standing::of(&self.tables.classes, class, fixed);
        self.alive(thread, random, |class| standing(class).name() == wished)
            .or_else(|| self.alive(thread, random, |class| class != 0))
    }

    /// A handle alive whose class is such, if some of the rows have one.
    fn alive(
        &self,
        thread: u32,
        random: &mut Random,
        is_such: impl Fn(Number) -> bool,
    ) -> Option<Handle> {
        let rows = &self.tables.references.rows;
        let start = random.below(rows.room().max(1));
        let mut around = (start..rows.room()).chain(0..start).take(MOST_LOOKS);
        let is_alive = |row: &Reference| {
            row[THREAD] == references::owner(thread, row[HANDLE]) && row[HANDLE] % 4 != 0
        };
        let index = around.find(|&index| {
            let row = &rows.all()[index];
            rows.is_used(index) && is_alive(row) && is_such(row[CLASS])
        });
        index.map(|index| rows.all()[index][HANDLE])
    }

    /// A handle that stands in some row, its twin, or a small number.
    fn handle(&self, thread: u32, random: &mut Random) -> Handle {
        const LAST: Handle = Handle::MAX;
        let rows = &self.tables.references.rows;
        let wanted = Number::from(random.pick(&[thread, thread, 0]));
        match random.below(11) {
            10 => row_of(rows, wanted, random).map(|row| twin_of(row[HANDLE], random)),
            0..4 => row_of(rows, wanted, random).map(|row| row[HANDLE]),
            4..6 => any_row(rows, random).map(|row| row[HANDLE]),
            6 => Some(random.pick(&[0, 0, 4, LAST, LAST - 1, LAST - 2])),
            7 => Some(Handle::from(random.between(61, 200))),
            _ => None,
        }
        .unwrap_or_else(|| Handle::from(random.between(0, 60)))
    }

    /// A pin row that a release by the thread could end if all numbers were cut to 32 bits, if some tries give one.
    fn pin(&self, thread: u32, random: &mut Random) -> Option<Pin> {
        let is_such = |row: &Pin| {
            let mut families = (0..FAMILIES.len() as u8).map(Family);
            let family = families.find(|family| row[FAMILY] % HIGH == family.0.into());
            family.is_some_and(|family| row[THREAD] % HIGH == pins::owner(thread, family))
        };
        (0..12)
            .filter_map(|_| any_row(&self.tables.pins.rows, random))
            .find(is_such)
    }

    fn buffer(&self, thread: u32, family: Family, random: &mut Random) -> Handle {
        let rows = &self.tables.pins.rows;
        let wanted = pins::owner(thread, family);
        match random.below(9) {
            0 | 1 => row_of(rows, wanted, random).map(|row| row[BUFFER]),
            2 | 3 => any_row(rows, random).map(|row| row[BUFFER]),
            4 => row_of(rows, wanted, random).map(|row| twin_of(row[BUFFER], random)),
            _ => None,
        }
        .unwrap_or_else(|| Handle::from(random.between(0, 9)))
    }
}

/// Each function as often, or one of those that take an identity, that take a class, or that do more or take a rare place.
fn a_function(random: &mut Random) -> u32 {
    match random.below(100) {
        0..50 => random.between(FIRST_FUNCTION, LAST_FUNCTION),
        50..65 => random.pick(&[
            9, 9, 12, 12, 34, 64, 95, 95, 104, 109, 112, 114, 145, 145, 154, 159, 162,
        ]),
        65..83 => random.pick(&[
            11, 13, 13, 13, 13, 13, 13, 13, 13, 31, 32, 64, 113, 164, 164, 164, 168, 170,
        ]),
        _ => random.pick(&[
            6, 19, 20, 20, 20, 21, 22, 22, 23, 23, 24, 26, 64, 104, 154, 165, 166, 170, 191, 218,
            222, 223, 225, 226, 227, 227,
        ]),
    }
}

/// A row of the room, used or not; the last ones more often.
fn any_row<const NUMBERS: usize>(
    rows: &Rows<NUMBERS>,
    random: &mut Random,
) -> Option<[Number; NUMBERS]> {
    let span = if random.percent(20) { 4 } else { rows.room() };
    let last = rows.room().checked_sub(1)?;
    Some(rows.all()[last - random.below(span.min(rows.room()))])
}

/// A row of this thread, if some tries give one.
fn row_of<const NUMBERS: usize>(
    rows: &Rows<NUMBERS>,
    thread: Number,
    random: &mut Random,
) -> Option<[Number; NUMBERS]> {
    (0..12)
        .filter_map(|_| any_row(rows, random))
        .find(|row| row[THREAD] == thread)
}
