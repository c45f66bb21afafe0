//! The maker of traces: from a seed and a profile, lines that a judge mostly accepts and often condemns.

mod classes;
mod dense;
mod identities;
mod profiles;

use crate::damage::{damage_bytes, damage_fields, disorder, odd_line};
use crate::edge::edge_line;
use crate::facts::*;
use crate::judge::Judge;
use crate::lent::book::{Book, Top};
use crate::lent::lookup::{Buffers, Handles};
use crate::lent::pins::{self, BUFFER, FAMILY};
use crate::lent::references::{self, HANDLE};
use crate::lent::rows::{Rows, THREAD};
use crate::limits::*;
use crate::line::{self, Event};
use crate::random::Random;
use crate::refusal::Refusal;
use crate::room::Room;
use crate::twin::{twin_of, ADDRESS, HIGH};
pub use dense::DENSE;
use profiles::Harm;
pub use profiles::{profile, Profile, PROFILES};

/// A trace, how it is made, and the room of the judge that it is for.
#[derive(Clone, Debug)]
pub struct Made {
    pub name: String,
    pub room: Room,
    pub trace: Vec<u8>,
}

impl Made {
    /// The lines, cut after each LF.
    pub fn lines(&self) -> impl Iterator<Item = &[u8]> {
        self.trace.split_inclusive(|&byte| byte == b'\n')
    }
}

/// From which numbers those of a trace are counted: from the least, from an address, or from several of which twins come.
const BASES: [&[Handle]; 6] = [
    &[0],
    &[0],
    &[ADDRESS],
    &[0, HIGH],
    &[ADDRESS, ADDRESS ^ HIGH],
    &[0, HIGH, Handle::MAX - (HIGH - 1)],
];

/// Makes a trace of about that many lines, for a judge with that room.
pub fn make(profile: &Profile, seed: u64, lines: usize, room: Room) -> Vec<u8> {
    let mut random = Random::new(seed);
    let mut threads: Vec<u32> = (1..=THREADS).collect();
    for index in 0..threads.len() {
        let other = random.below(threads.len());
        threads.swap(index, other);
    }
    let (fewest, most) = profile.threads;
    threads.truncate(random.between(fewest, most) as usize);
    let bases = random.pick(&BASES);
    let mut maker = Maker {
        profile,
        random,
        bases,
        judge: Judge::new(room),
        threads,
        lines: Vec::new(),
    };
    if profile.harm == Harm::None {
        maker.trace(lines);
    } else {
        maker.accepted(lines);
    }
    match profile.harm {
        Harm::None => {}
        Harm::Bytes => damage_bytes(&mut maker.lines, &mut maker.random),
        Harm::Fields => damage_fields(&mut maker.lines, &mut maker.random),
        Harm::Order => disorder(&mut maker.lines, &mut maker.random),
        Harm::Edge => {
            if maker.random.percent(20) {
                maker.lines.push(b"Z\n".to_vec());
            }
            let line = edge_line(&mut maker.random);
            maker.lines.push(line);
        }
    }
    maker.lines.concat()
}

struct Maker<'a> {
    profile: &'a Profile,
    random: Random,
    bases: &'static [Handle],
    /// The model: the judge of the lines made so far.
    judge: Judge,
    threads: Vec<u32>,
    lines: Vec<Vec<u8>>,
}

impl Maker<'_> {
    /// Makes a trace that ends open, closed or refused, and sometimes goes on after that.
    fn trace(&mut self, lines: usize) {
        let &Profile {
            refused, closed, ..
        } = self.profile;
        let end = self.random.below(100) as u32;
        if end < refused {
            let refusal = self.random.pick(self.profile.refusals);
            self.accepted(lines * 3 / 4);
            self.refused(refusal, lines.div_ceil(4));
        } else if end < refused + closed {
            self.accepted(lines.saturating_sub(1));
            self.lines.push(b"Z\n".to_vec());
        } else {
            self.accepted(lines);
        }
        if self.random.percent(40) {
            for _ in 0..self.random.between(1, 3) {
                let line = self.doubtful_line();
                self.lines.push(line);
            }
        }
    }

    /// A line to go on with after the end: an event, one at an edge, or an odd line.
    fn doubtful_line(&mut self) -> Vec<u8> {
        match self.random.below(3) {
            0 => encode(&self.event(50)),
            1 => edge_line(&mut self.random),
            _ => odd_line(&mut self.random),
        }
    }

    /// Adds accepted lines until there are so many, refused ones being left out.
    fn accepted(&mut self, lines: usize) {
        for _ in 0..lines * 8 + 100 {
            if self.lines.len() >= lines {
                return;
            }
            let line = encode(&self.event(2));
            if self.judge.step(&line).is_ok() {
                self.lines.push(line);
            }
        }
    }

    /// Adds accepted lines and then one refused with this number, if it comes up within so many lines.
    fn refused(&mut self, refusal: Refusal, lines: usize) {
        let most = self.lines.len() + lines;
        for _ in 0..lines * 8 {
            if self.lines.len() >= most {
                return;
            }
            let line = encode(&self.event(30));
            match self.judge.step(&line) {
                Ok(_) => self.lines.push(line),
                Err(number) if number == refusal => {
                    self.lines.push(line);
                    return;
                }
                Err(_) => {}
            }
        }
    }

    /// An event of some thread, with that chance one that goes astray.
    fn event(&mut self, astray: u32) -> Event {
        let thread = self.random.pick(&self.threads);
        if self.random.percent(astray) {
            return self.astray(thread);
        }
        if self.random.percent(self.profile.classed) {
            return self.class_event(thread);
        }
        if self.random.percent(self.profile.identified) {
            return self.statement();
        }
        match self.top(thread) {
            Top::Nothing if self.random.percent(self.profile.attached) => self.attach(thread),
            Top::Nothing => self.enter(thread),
            Top::Native if self.random.percent(self.profile.left) => self.leave(thread),
            Top::Attached if self.random.percent(self.profile.left) => Event::D { thread },
            Top::Native | Top::Attached => self.call(thread),
            Top::Call { .. } if self.random.percent(self.profile.nested) => self.enter(thread),
            Top::Call { function, .. } => self.answer(thread, function),
        }
    }

    /// An event that the step order, the env rule, the alive handles, the classes or the room for identities likely forbid.
    fn astray(&mut self, thread: u32) -> Event {
        if self.profile.classed > 0 && self.random.percent(40) {
            return self.doubtful_class_event(thread);
        }
        if self.profile.identified > 0 && self.random.percent(20) {
            return self.doubtful_statement();
        }
        let attached = self.thread_with(|book, thread| book.top(thread) == Top::Attached);
        let thread = match attached {
            Some(attached) if self.random.percent(self.profile.attached) => attached,
            _ => thread,
        };
        match self.random.below(10) {
            0 => self.enter(thread),
            1 => self.leave(thread),
            2 => self.call(thread),
            3 => {
                let function = self.function(thread);
                self.answer(thread, function)
            }
            4 => self.open_with_doubtful_env(thread),
            5 => self.enter_with_doubtful_handles(thread),
            6 => self.attach(thread),
            7 => Event::D { thread },
            _ => self.answer_with_alive_handle(thread),
        }
    }

    /// An N or an A.
    fn open_with_doubtful_env(&mut self, thread: u32) -> Event {
        let closed = self
            .thread_with(|book, thread| book.env(thread) != 0 && book.top(thread) == Top::Nothing);
        let closed = closed.unwrap_or(thread);
        let (thread, env) = if self.random.percent(60) {
            (closed, self.other_env(closed))
        } else {
            (self.random.between(1, THREADS), env_of(closed))
        };
        if self.random.percent(self.profile.attached.max(30)) {
            return Event::A { thread, env };
        }
        Event::N {
            thread,
            env,
            count: 0,
            handles: [0; MOST_HANDLES],
        }
    }

    /// One of the threads that are such, if there is any.
    fn thread_with(&mut self, is_such: impl Fn(&Book, u32) -> bool) -> Option<u32> {
        let book = self.judge.tables().book;
        let threads = self.threads.iter().copied();
        let such: Vec<u32> = threads.filter(|&thread| is_such(&book, thread)).collect();
        (!such.is_empty()).then(|| self.random.pick(&such))
    }

    fn enter_with_doubtful_handles(&mut self, thread: u32) -> Event {
        let mut event = self.enter(thread);
        let alive = self.alive(thread, LOCAL);
        if let Event::N { count, handles, .. } = &mut event {
            *count = (*count).max(2);
            let at = self.random.below(*count);
            for (index, handle) in handles[..*count].iter_mut().enumerate() {
                if *handle == 0 {
                    *handle = 4 * index as Handle + LOCAL;
                }
            }
            handles[at] = match alive {
                Some(handle) if self.random.percent(50) => handle,
                _ => handles[(at + 1) % *count],
            };
        }
        event
    }

    fn answer_with_alive_handle(&mut self, thread: u32) -> Event {
        let Top::Call { function, .. } = self.top(thread) else {
            return self.leave(thread);
        };
        let alive = match known(function).result {
            ResultKind::Local => self.alive(thread, LOCAL),
            ResultKind::Global => self.alive(thread, GLOBAL),
            ResultKind::Weak => self.alive(thread, WEAK),
            _ => None,
        };
        let mut event = self.answer(thread, function);
        if let (Event::R { result, .. }, Some(alive)) = (&mut event, alive) {
            *result = alive.into();
        }
        event
    }

    fn enter(&mut self, thread: u32) -> Event {
        let count = if self.random.percent(self.profile.crowded) {
            MOST_HANDLES
        } else {
            self.random.below(self.profile.handles)
        };
        let mut handles = [0; MOST_HANDLES];
        let mut named = 0;
        for _ in 0..count {
            let handle = self.fresh(thread, LOCAL);
            if !handles.contains(&handle) && !self.is_alive(thread, handle) {
                handles[named] = handle;
                named += 1;
            }
        }
        Event::N {
            thread,
            env: env_of(thread),
            count: named,
            handles,
        }
    }

    fn attach(&self, thread: u32) -> Event {
        Event::A {
            thread,
            env: env_of(thread),
        }
    }

    fn leave(&mut self, thread: u32) -> Event {
        Event::X {
            thread,
            result: self.place(thread, PlaceKind::HandleOrNull, None),
        }
    }

    fn call(&mut self, thread: u32) -> Event {
        let function = self.function(thread);
        let facts = known(function);
        if let Some(statement) = facts.wanted().and_then(|wanted| self.owed(wanted)) {
            return statement;
        }
        let env = if self.random.percent(self.profile.spoilt / 3) {
            self.other_env(thread)
        } else {
            env_of(thread)
        };
        let places = [0, 1, 2].map(|at| self.place(thread, facts.places[at], facts.classes[at]));
        let capacity = if facts.uses_capacity {
            self.capacity()
        } else {
            0
        };
        Event::C {
            thread,
            env,
            function,
            places,
            capacity,
        }
    }

    fn answer(&mut self, thread: u32, function: u32) -> Event {
        let null = self.random.percent(12);
        let result = match known(function).result {
            ResultKind::Status => self.status().into(),
            ResultKind::Nothing => 0,
            _ if null => 0,
            ResultKind::Local => self.fresh(thread, LOCAL).into(),
            ResultKind::Global => self.fresh(thread, GLOBAL).into(),
            ResultKind::Weak => self.fresh(thread, WEAK).into(),
            ResultKind::Identity => self.number(0).into(),
            ResultKind::Buffer(_) => self.buffer().into(),
        };
        Event::R {
            thread,
            function,
            result,
            pending: self.random.percent(self.profile.pending).into(),
        }
    }

    fn function(&mut self, thread: u32) -> u32 {
        let tables = self.judge.tables();
        let wished: Option<fn(&Facts) -> bool> =
            if tables.pins.has_critical(thread) && self.random.percent(50) {
                Some(|facts| facts.allowed_critical)
            } else if tables.book.is_pending(thread) && self.random.percent(50) {
                Some(|facts| facts.allowed_pending)
            } else {
                None
            };
        if let Some(wished) = wished {
            loop {
                let function = self.random.between(FIRST_FUNCTION, LAST_FUNCTION);
                if wished(known(function)) {
                    return function;
                }
            }
        }
        if self.random.percent(self.profile.favoured) {
            self.random.pick(self.profile.functions)
        } else if self.random.percent(self.profile.at_ends) {
            self.random.pick(&[FIRST_FUNCTION, LAST_FUNCTION])
        } else {
            self.random.between(FIRST_FUNCTION, LAST_FUNCTION)
        }
    }

    /// A value for a place, a good one where there is one and it is not spoilt.
    fn place(&mut self, thread: u32, kind: PlaceKind, fixed: Option<Class>) -> Handle {
        if kind != PlaceKind::Unused && self.random.percent(self.profile.spoilt) {
            return self.spoilt_value(thread);
        }
        let is_handle = !matches!(
            kind,
            PlaceKind::Unused | PlaceKind::Identity(_) | PlaceKind::Buffer(_)
        );
        if is_handle && self.random.percent(self.profile.stale) {
            let kind = self.random.pick(&[LOCAL, LOCAL, GLOBAL, WEAK]);
            return self.number(kind);
        }
        let classed = fixed.filter(|_| self.profile.classed > 0);
        if let Some(fixed) = classed.filter(|_| self.random.percent(70)) {
            if let Some(handle) = self.alive_by_class(thread, fixed) {
                return handle;
            }
        }
        let good = match kind {
            PlaceKind::Unused => Some(0),
            PlaceKind::Handle => self.alive_of_any_kind(thread),
            PlaceKind::HandleOrNull if self.random.percent(60) => self.alive_of_any_kind(thread),
            PlaceKind::HandleOrNull => Some(0),
            PlaceKind::Local => self.alive(thread, LOCAL).or(Some(0)),
            PlaceKind::Global => self.alive(thread, GLOBAL).or(Some(0)),
            PlaceKind::Weak => self.alive(thread, WEAK).or(Some(0)),
            PlaceKind::Identity(wanted) => Some(self.identity(wanted)),
            PlaceKind::Buffer(family) => self.outstanding(thread, family),
        };
        match good {
            None => self.spoilt_value(thread),
            Some(value) if value != 0 && self.random.percent(self.profile.spoilt / 2) => {
                twin_of(value, &mut self.random)
            }
            Some(value) => value,
        }
    }

    fn spoilt_value(&mut self, thread: u32) -> Handle {
        match self.random.below(10) {
            0 | 1 => 0,
            9 => twin_of(0, &mut self.random),
            2 => self.number(0),
            3 => self.number(LOCAL),
            4 => self.number(GLOBAL),
            5 => self.number(WEAK),
            6 => self.others_local(thread).unwrap_or(0),
            7 => self.alive_of_any_kind(thread).unwrap_or(0),
            _ => self.buffer(),
        }
    }

    fn alive_of_any_kind(&mut self, thread: u32) -> Option<Handle> {
        let kind = self.random.pick(&[LOCAL, LOCAL, LOCAL, GLOBAL, WEAK]);
        self.alive(thread, kind)
            .or_else(|| self.alive(thread, LOCAL))
            .or_else(|| self.alive(thread, GLOBAL))
            .or_else(|| self.alive(thread, WEAK))
    }

    fn alive(&mut self, thread: u32, kind: Handle) -> Option<Handle> {
        let owner = references::owner(thread, kind);
        let rows = &self.judge.tables().references.rows;
        find_from_anywhere(&mut self.random, rows, |row| {
            row[THREAD] == owner && row[HANDLE] % 4 == kind
        })
        .map(|row| row[HANDLE])
    }

    fn others_local(&mut self, own: u32) -> Option<Handle> {
        let own = Number::from(own);
        let rows = &self.judge.tables().references.rows;
        find_from_anywhere(&mut self.random, rows, |row| {
            row[THREAD] != 0 && row[THREAD] != own
        })
        .map(|row| row[HANDLE])
    }

    fn outstanding(&mut self, thread: u32, family: Family) -> Option<Handle> {
        let (owner, family) = (pins::owner(thread, family), Number::from(family.0));
        let rows = &self.judge.tables().pins.rows;
        find_from_anywhere(&mut self.random, rows, |row| {
            row[THREAD] == owner && row[FAMILY] == family
        })
        .map(|row| row[BUFFER])
    }

    fn top(&mut self, thread: u32) -> Top {
        self.judge.tables().book.top(thread)
    }

    fn is_alive(&mut self, thread: u32, handle: Handle) -> bool {
        self.judge.tables().references.is_alive(thread, handle)
    }

    /// A handle of this kind, not alive if some tries give one.
    fn fresh(&mut self, thread: u32, kind: Handle) -> Handle {
        let mut handle = self.number(kind);
        for _ in 0..6 {
            if !self.is_alive(thread, handle) {
                break;
            }
            handle = self.number(kind);
        }
        handle
    }

    /// A nonzero number with this remainder by 4, at its ends also such as lie about the first of more than 32 bits.
    fn number(&mut self, remainder: Handle) -> Handle {
        let low = if remainder == 0 { 4 } else { remainder };
        if self.random.percent(self.profile.at_ends) {
            let high = HIGH + remainder;
            let greatest = Handle::MAX - 3 + remainder;
            return self.random.pick(&[low, high - 4, high, greatest]);
        }
        let base = self.random.pick(self.bases);
        base + low + 4 * self.random.below(self.profile.numbers) as Handle
    }

    fn buffer(&mut self) -> Handle {
        if self.random.percent(self.profile.at_ends) {
            return self.random.pick(&[1, HIGH - 1, HIGH, Handle::MAX]);
        }
        let base = self.random.pick(self.bases);
        base + 1 + self.random.below(self.profile.numbers) as Handle
    }

    fn capacity(&mut self) -> i32 {
        if self.random.percent(self.profile.at_ends) {
            return self.random.pick(&[i32::MIN, i32::MAX]);
        }
        self.random
            .pick(&[-5, -1, -1, 0, 0, 0, 1, 1, 2, 3, 5, 16, 17, 40])
    }

    fn status(&mut self) -> i32 {
        if self.random.percent(self.profile.at_ends) {
            return self.random.pick(&[i32::MIN, i32::MAX]);
        }
        self.random.pick(&[0, 0, 0, 0, 0, 0, 0, -1, 1, -4])
    }

    fn other_env(&mut self, thread: u32) -> Handle {
        match self.random.below(5) {
            0 => self.random.pick(&[1, HIGH - 1, HIGH, Handle::MAX]),
            1 => env_of(self.random.between(1, THREADS)),
            2 | 3 => twin_of(env_of(thread), &mut self.random),
            _ => Handle::from(self.random.between(2, 2_000)),
        }
    }
}

/// The envs the maker gives the threads: both ends of the range, small ones and addresses, of the others each two twins.
fn env_of(thread: u32) -> Handle {
    let base = if thread < 8 { 0 } else { ADDRESS };
    let even = base + 100 * Handle::from(thread / 2);
    match thread {
        1 => 1,
        THREADS => Handle::MAX,
        _ if thread.is_multiple_of(2) => even,
        _ => even ^ HIGH,
    }
}

fn encode(event: &Event) -> Vec<u8> {
    let mut line = [0; MOST_BYTES + 1];
    let length = line::write(event, &mut line).expect("an event in range");
    line[..length].to_vec()
}

/// A used row that matches, the first from some row on and round.
fn find_from_anywhere<const NUMBERS: usize>(
    random: &mut Random,
    rows: &Rows<NUMBERS>,
    matches: impl Fn(&[Number; NUMBERS]) -> bool,
) -> Option<[Number; NUMBERS]> {
    if rows.room() == 0 {
        return None;
    }
    let start = random.below(rows.room());
    let mut around = (start..rows.room()).chain(0..start);
    let index = around.find(|&index| matches(&rows.all()[index]) && rows.is_used(index));
    index.map(|index| rows.all()[index])
}
