//! What a trace shows: each judgement of its lines with what came before it, each in a few words.
//!
//! Of two traces that show the same one is enough, where a trace costs much to judge. An act shows only where a later line
//! is judged by it: so what last happened to a handle, a buffer, a thread or a frame is told when it is looked at.

mod classes;
mod fields;
mod identities;
mod leaks;
mod past;

use crate::coverage::{grounds, twins};
use crate::facts::*;
use crate::findings::{Finding, Findings};
use crate::judge::Judge;
use crate::lent::book::Top;
use crate::lent::lookup::{Buffers, Handles};
use crate::lent::pins::{self, BUFFER, FAMILY};
use crate::lent::references::{self, Reference, FRAME, HANDLE};
use crate::lent::rows::{Rows, THREAD};
use crate::lent::Tables;
use crate::limits::*;
use crate::line::{self, Event};
use crate::refusal::{Refusal, ALREADY_ALIVE, NOT_ALIVE, NO_ROOM, WRONG_CLASS};
use crate::room::Room;
use classes::Classed;
use identities::Identified;
use past::{Frame, Past};
use std::collections::BTreeSet;

/// What makes a handle alive: a reference row without its class.
type Life = [Number; 4];
type Pin = [Number; PIN_NUMBERS];
/// What makes buffers equal: a pin row without its making line.
type Buffer = [Number; 3];

/// What the lines of a trace show, up to the first that is refused.
pub fn sights(trace: &[u8], room: Room) -> BTreeSet<String> {
    let mut watch = Watch {
        judge: Judge::new(room),
        past: Past::default(),
        classed: Classed::default(),
        identified: Identified::default(),
        findings: 0,
        sights: BTreeSet::new(),
    };
    let mut lines = trace.split_inclusive(|&byte| byte == b'\n');
    let refusal = lines.find_map(|line| watch.line(line).err());
    watch.end(refusal);
    watch.sights
}

struct Watch {
    judge: Judge,
    past: Past,
    classed: Classed,
    identified: Identified,
    findings: usize,
    sights: BTreeSet<String>,
}

impl Watch {
    fn show(&mut self, sight: String) {
        self.sights.insert(sight);
    }

    fn line(&mut self, line: &[u8]) -> Result<(), Refusal> {
        let event = match line::read(line) {
            Ok(event) => event,
            Err(refusal) => {
                self.sights.extend(fields::of_unread(line, refusal));
                return Err(refusal);
            }
        };
        let against = grounds(&self.judge.tables(), &event);
        if let Some(&(refusal, _)) = against.first() {
            self.refused(&event, refusal, &against);
            let twins = twins::of_refused(&self.judge.tables(), &event, refusal);
            self.twins(&event, twins);
            return Err(refusal);
        }
        self.sights.extend(fields::of_read(&event));
        self.judged(&event);
        let tables = self.judge.tables();
        let before = (lives(&tables), used(&tables.pins.rows));
        self.classed.add(&tables, &event);
        self.identified.add(&event);
        let findings = self.judge.step(line).expect("nothing is against it");
        self.found(letter(&event), &findings);
        let twins = twins::of_accepted(&self.judge.tables(), &event, &findings);
        self.twins(&event, twins);
        self.past
            .add(&event, !findings.is_empty(), before, &self.judge.tables());
        Ok(())
    }

    /// The twins that come up with an event, beside the kind of what it names or makes.
    fn twins(&mut self, event: &Event, twins: Vec<&'static str>) {
        let letters = match *event {
            Event::C { function, .. } => known(function).letters().0,
            Event::R { function, .. } => known(function).letters().1.to_string(),
            _ => String::new(),
        };
        for twin in twins {
            self.show(format!("{} {letters}: {twin} a twin", letter(event)));
        }
    }

    fn end(&mut self, refusal: Option<Refusal>) {
        let (is_refused, book) = (refusal.is_some(), self.judge.tables().book);
        let (is_closed, lines) = (book.is_closed(), book.lines());
        let digits = |count: String| count.len();
        let (lines, findings) = (digits(lines.to_string()), digits(self.findings.to_string()));
        self.show(format!("end: refused {is_refused}, closed {is_closed}"));
        self.show(format!("end: lines of {lines} digits"));
        self.show(format!("end: findings of {findings} digits"));
        let leaks = leaks::shown(&self.judge.tables(), &self.past, is_refused);
        self.sights.extend(leaks);
    }

    /// Each finding, how many there are, which rules are broken together, and what their order tells.
    fn found(&mut self, letter: char, findings: &Findings) {
        self.findings += findings.len();
        self.show(format!("{letter}: {} findings", findings.len()));
        for (index, found) in findings.iter().enumerate() {
            self.show(format!("{letter}: rule {} at {}", found.rule, found.place));
            for other in &findings[..index] {
                let (first, second) = (broken(other), broken(found));
                self.show(format!("{letter}: {first}, {second} together"));
            }
        }
        for pair in findings.windows(2) {
            let rules = pair[0].rule.cmp(&pair[1].rule);
            let places = pair[0].place.cmp(&pair[1].place);
            self.show(format!("findings: rules {rules:?}, places {places:?}"));
        }
    }

    /// Why it is refused and over what, and which later refusals this one goes before.
    fn refused(&mut self, event: &Event, refusal: Refusal, against: &[(Refusal, &'static str)]) {
        let (letter, top) = (letter(event), self.top(event));
        let letter = match *event {
            Event::R { function, .. } if refusal >= ALREADY_ALIVE => {
                format!("R of {}", known(function).letters().1)
            }
            _ => letter.to_string(),
        };
        if refusal == ALREADY_ALIVE {
            self.already_alive(&letter, event);
        }
        if let (NOT_ALIVE, &Event::O { thread, handle, .. }) = (refusal, event) {
            let rows = self.judge.tables().references.rows;
            let elsewhere = rows.has(|row| row[HANDLE] == handle);
            let fate = self.past.of_handle(thread, handle);
            self.show(format!("10: {fate}, elsewhere {elsewhere}"));
        }
        if let (WRONG_CLASS, [(_, cause)]) = (refusal, against) {
            self.show(format!("9: {cause} alone"));
        }
        if let (NO_ROOM, Event::M { .. }) = (refusal, event) {
            let room = few(self.judge.tables().identities.room());
            self.show(format!("7: M, room for {room}"));
        }
        let book = self.judge.tables().book;
        let is_sharer = |other: &u32| match *event {
            Event::N { thread, env, .. } | Event::A { thread, env } => {
                *other != thread && book.env(*other) == env
            }
            _ => false,
        };
        let sharer = (1..=THREADS).find(is_sharer);
        let is_idle = sharer.is_some_and(|sharer| book.top(sharer) == Top::Nothing);
        let is_lower = sharer.is_some_and(|sharer| sharer < thread(event));
        let entered = self.past.entered(thread(event));
        for &(other, cause) in against {
            if other == refusal && cause.ends_with("changed") {
                self.show(format!("{refusal}: {cause}, {entered}"));
            }
            self.show(match cause {
                _ if other != refusal => format!("{refusal} before {other}: {letter}"),
                _ if cause.ends_with("after Z") => format!("{refusal}: {letter} after Z"),
                "N shared" | "A shared" => {
                    format!("{refusal}: {cause}, sharer idle {is_idle}, lower {is_lower}")
                }
                _ => format!("{refusal}: {letter} {cause} over {top}"),
            });
        }
    }

    /// What last happened to the handles alive that it would make, and whether they stand in the top frame.
    fn already_alive(&mut self, letter: &str, event: &Event) {
        let thread = thread(event);
        let made: Vec<Handle> = match *event {
            Event::N { count, handles, .. } => handles[..count].to_vec(),
            Event::R { result, .. } => vec![line::made(result)],
            _ => Vec::new(),
        };
        for handle in made {
            let tables = self.judge.tables();
            let frame = tables.book.frames(thread) as Number;
            let in_top = [references::owner(thread, handle), handle, frame];
            let is_in_top = tables.references.rows.has(|row| row.starts_with(&in_top));
            if tables.references.is_alive(thread, handle) {
                let fate = self.past.of_handle(thread, handle);
                self.show(format!("6: {letter}, {fate}, in the top frame {is_in_top}"));
            }
        }
    }

    // ---- what is judged of an accepted event, before it acts

    fn judged(&mut self, event: &Event) {
        match *event {
            Event::N {
                thread,
                count,
                handles,
                ..
            } => self.enter(event, thread, &handles[..count]),
            Event::X { thread, result } => {
                let frames = self.past.frames(thread);
                let pushed = frames.iter().rev().take_while(|frame| frame.is_pushed());
                let (pushed, frames) = (few(pushed.count()), few(frames.len()));
                self.show(format!("X: {pushed} pushed of {frames} frames"));
                self.critical("X", thread, false);
                self.place("X", thread, PlaceKind::HandleOrNull, result);
                self.class_of(event, "X", 0, result);
            }
            Event::C {
                thread,
                env,
                function,
                places,
                ..
            } => {
                self.call(thread, env, function);
                let facts = known(function);
                for (index, letter) in facts.letters().0.char_indices() {
                    let (place, value) = (facts.places[index], places[index]);
                    self.place(&letter.to_string(), thread, place, value);
                    if let (PlaceKind::Identity(wanted), "identity") = (place, kind(value)) {
                        let shown = self.identified.place(wanted, index, value);
                        self.sights.extend(shown);
                    }
                    self.class_of(event, &letter.to_string(), index, value);
                }
            }
            Event::R {
                thread,
                function,
                result,
                pending,
            } => self.answer(thread, function, result, pending),
            Event::A { thread, .. } => self.attach(thread),
            Event::D { thread } => self.detach(thread),
            Event::K { .. } | Event::O { .. } => {
                let shown = self.classed.class_event(&self.judge.tables(), event);
                self.sights.extend(shown);
            }
            Event::M { .. } => {
                let shown = self.identified.statement(&self.judge.tables(), event);
                self.sights.extend(shown);
            }
            Event::Z => self.close(),
        }
    }

    fn class_of(&mut self, event: &Event, letter: &str, index: usize, value: Handle) {
        let tables = self.judge.tables();
        let shown = self.classed.place(&tables, event, letter, index, value);
        self.sights.extend(shown);
    }

    fn enter(&mut self, event: &Event, thread: u32, handles: &[Handle]) {
        let top = self.top(event);
        let tables = self.judge.tables();
        let pending = tables.book.is_pending(thread);
        let is_first = tables.book.env(thread) == 0;
        let free = tables.references.rows.free();
        let (lowest, entered) = (self.past.lowest(thread), self.past.entered(thread));
        let within = match top {
            "call" => format!("N over call, lowest {lowest}"),
            _ => format!("N over {top}, {entered}"),
        };
        self.show(within);
        self.show(format!("N over {top}, pending {pending}, first {is_first}"));
        if handles.is_empty() || handles.len() == MOST_HANDLES {
            self.show(format!(
                "N of {} handles, {} free",
                handles.len(),
                free.min(1)
            ));
        } else if handles.len() == free {
            self.show(format!(
                "N takes the last rows, some ended {}",
                self.past.has_ended()
            ));
        }
        for &handle in handles {
            let rows = self.judge.tables().references.rows;
            let elsewhere = rows.has(|row| row[HANDLE] == handle);
            let fate = self.past.of_handle(thread, handle);
            self.show(format!("N names {fate}, elsewhere {elsewhere}"));
        }
    }

    fn attach(&mut self, thread: u32) {
        let book = self.judge.tables().book;
        let pending = book.is_pending(thread);
        let monitors = few(book.monitors(thread) as usize);
        let entered = self.past.entered(thread);
        self.show(format!("A: pending {pending}"));
        self.show(format!("A: {entered}"));
        self.show(format!("A: {monitors} monitors"));
    }

    fn detach(&mut self, thread: u32) {
        let frames = few(self.past.frames(thread).len());
        let tables = self.judge.tables();
        let own = Number::from(thread);
        let locals = few(tables.references.rows.count(|row| row[THREAD] == own));
        let others = tables.references.rows.has(|row| row[THREAD] != own);
        let monitors = few(tables.book.monitors(thread) as usize);
        let mut all = (1..=THREADS).filter(|&other| other != thread);
        let others_monitors = all.any(|other| tables.book.monitors(other) > 0);
        let (_, monitors_by) = self.past.of_thread(thread);
        self.show(format!("D: {locals} locals, others {others}"));
        self.show(format!("D: {locals} locals in {frames} frames"));
        self.show(format!("D: {monitors} monitors, others {others_monitors}"));
        self.show(format!("D: {monitors} monitors, {monitors_by}"));
        self.critical("D", thread, false);
    }

    fn call(&mut self, thread: u32, env: Handle, function: u32) {
        let facts = known(function);
        let (pending_allowed, critical_allowed) = (facts.allowed_pending, facts.allowed_critical);
        let book = self.judge.tables().book;
        let others =
            |test: &dyn Fn(u32) -> bool| (1..=THREADS).any(|other| other != thread && test(other));
        let own_env = book.env(thread) == env;
        let others_env = others(&|other| book.env(other) == env);
        let pending = book.is_pending(thread);
        let others_pending = others(&|other| book.is_pending(other));
        let monitors = few(book.monitors(thread) as usize);
        let others_monitors = others(&|other| book.monitors(other) > 0);
        let (pending_by, monitors_by) = self.past.of_thread(thread);
        let top = match book.top(thread) {
            Top::Attached => "attached",
            _ => "native",
        };
        self.show(format!("C: own env {own_env}, another's {others_env}"));
        self.show(format!("C over {top}: own env {own_env}"));
        self.show(format!(
            "C: pending {pending} {pending_by}, allowed {pending_allowed}"
        ));
        self.show(format!("C: pending {pending}, others {others_pending}"));
        let critical = self.judge.tables().pins.has_critical(thread);
        let (pending, critical) = (
            pending.then_some(pending_allowed),
            critical.then_some(critical_allowed),
        );
        self.show(format!(
            "C: own env {own_env}, pending allowed {pending:?}, critical allowed {critical:?}"
        ));
        self.critical("C", thread, critical_allowed);
        if function == MONITOR_EXIT {
            self.show(format!(
                "218: {monitors} monitors, others {others_monitors}"
            ));
            self.show(format!("218: {monitors} monitors, {monitors_by}"));
        }
        if let (POP_LOCAL_FRAME, [below @ .., top]) = (function, self.past.frames(thread)) {
            let frames = few(below.len() + 1);
            let below = below.last().map(Frame::is_pushed);
            let shown = [
                format!("20: {}, of {frames} frames", top.opened),
                format!("20: pushed {}, below {below:?}", top.is_pushed()),
                format!("20: pushed {}, {}", top.is_pushed(), top.since),
            ];
            self.sights.extend(shown);
        }
    }

    fn critical(&mut self, letter: &str, thread: u32, allowed: bool) {
        let own = Number::from(thread);
        let rows = self.judge.tables().pins.rows;
        let count = rows.count(|row| row[THREAD] == own);
        let others = rows.has(|row| row[THREAD] != 0 && row[THREAD] != own);
        let ordinary = rows.has(|row| row[THREAD] == 0);
        self.show(match few(count) {
            "no" => format!("{letter}: not critical, others {others}, ordinary {ordinary}"),
            few => format!("{letter}: {few} critical, allowed {allowed}"),
        });
    }

    fn place(&mut self, letter: &str, thread: u32, place: PlaceKind, value: Handle) {
        let class = kind(value);
        match place {
            PlaceKind::Unused => {}
            PlaceKind::Identity(_) => self.show(format!("i: {class}")),
            PlaceKind::Buffer(family) => self.buffer(thread, family, value),
            _ => {
                let references = self.judge.tables().references;
                let alive = value % 4 != 0 && references.is_alive(thread, value);
                let elsewhere = !alive && references.rows.has(|row| row[HANDLE] == value);
                self.show(format!("{letter}: {class}, alive {alive}"));
                let fate = self.past.of_handle(thread, value);
                self.show(format!(
                    "{class} alive {alive}, {fate}, elsewhere {elsewhere}"
                ));
            }
        }
    }

    fn buffer(&mut self, thread: u32, family: Family, buffer: Handle) {
        let own: Buffer = [pins::owner(thread, family), family.0.into(), buffer];
        let rows = self.judge.tables().pins.rows;
        let count = few(rows.count(|row| buffer_of(row) == own));
        let is_equal = |row: &Pin| row[BUFFER] == buffer;
        let is_its = |row: &Pin| row[FAMILY] == own[FAMILY];
        let other_family = rows.has(|row| is_equal(row) && !is_its(row));
        let other_thread = rows.has(|row| is_equal(row) && is_its(row) && buffer_of(row) != own);
        let kind = if family.is_critical() {
            "critical"
        } else {
            "ordinary"
        };
        let fate = self.past.of_buffer(own);
        self.show(format!("b: null {}, {count} {kind}, {fate}", buffer == 0));
        self.show(format!(
            "b: {count} {kind}, other family {other_family}, other thread {other_thread}"
        ));
    }

    fn answer(&mut self, thread: u32, function: u32, result: Field, pending: u32) {
        let (_, kind) = known(function).letters();
        let makes = result > 0 && kind != 'S';
        let tables = self.judge.tables();
        let was = tables.book.is_pending(thread);
        let frame = tables.book.frames(thread);
        let held = tables.references.locals_alive_in(thread, frame) as Word;
        let capacity = tables.book.capacity(thread, frame);
        let is_others =
            |row: &Reference| row[FRAME] as usize == frame && row[THREAD] != Number::from(thread);
        let others = tables.references.rows.has(is_others);
        let below = (1..frame).any(|below| tables.references.locals_alive_in(thread, below) > 0);
        let is_last = match kind {
            'L' | 'G' | 'W' => tables.references.rows.free() == 1,
            'B' => tables.pins.rows.free() == 1,
            _ => false,
        };
        self.show(format!("R: pending {was}, then {pending}"));
        if makes && "LGW".contains(kind) {
            let handle = line::made(result);
            let rows = self.judge.tables().references.rows;
            let elsewhere = rows.has(|row| row[HANDLE] == handle);
            let fate = self.past.of_handle(thread, handle);
            let just_now = self.past.has_just_ended(thread, handle);
            self.show(format!(
                "R makes {fate}, just now {just_now}, elsewhere {elsewhere}"
            ));
        }
        if kind == 'S' {
            self.show(format!("R of {function}: {}", result.signum()));
        }
        if kind == 'L' && makes && (held == capacity || held + 1 == capacity) {
            let over = held == capacity;
            let top = self.past.frames(thread).last().expect("a frame").clone();
            self.show(format!("R: over {over}, {}", top.opened));
            self.show(format!(
                "R: over {over}, pushed {}, {}",
                top.is_pushed(),
                top.since
            ));
            self.show(format!("R: over {over}, capacity {}", top.capacity_by));
            self.show(format!("R: over {over}, others {others}, below {below}"));
            self.arguments(thread, over);
        } else if held == capacity && "LGWB".contains(kind) {
            self.show(format!("R: {kind} in a full frame, made {makes}"));
        }
        if makes && is_last {
            self.show(format!(
                "R: {kind} takes the last row, some ended {}",
                self.past.has_ended()
            ));
        }
    }

    /// Where a local is the last that the top frame holds, or one over: what the arguments of the native are.
    fn arguments(&mut self, thread: u32, over: bool) {
        let frames = self.past.frames(thread);
        let (outermost, top) = (&frames[0], frames.last().expect("a frame"));
        let native = frames.iter().rfind(|frame| !frame.is_pushed());
        let arguments = &native.expect("a native").arguments;
        let (count, pushed) = (arguments.len(), top.is_pushed());
        let by = top.capacity_by.split(" of").next().expect("a part");
        let mut shown = vec![format!(
            "R: over {over}, pushed {pushed}, arguments {}, capacity {by}",
            count > 0
        )];
        if !pushed && by != "by 26" {
            let nested = (frames.len() > 1).then(|| count.cmp(&outermost.arguments.len()));
            let references = self.judge.tables().references;
            let is_ended = |&handle: &Handle| !references.is_alive(thread, handle);
            let ended = arguments.iter().any(is_ended);
            shown.push(format!("R: over {over}, {} of {count}", top.opened));
            shown.push(format!(
                "R: over {over}, native, beside the outermost {nested:?}"
            ));
            shown.push(format!("R: over {over}, native, argument ended {ended}"));
        }
        self.sights.extend(shown);
    }

    fn close(&mut self) {
        let tables = self.judge.tables();
        let buffers = few(tables.pins.rows.used());
        let critical = few(tables.pins.rows.count(|row| row[THREAD] != 0));
        let monitors = |thread| tables.book.monitors(thread) as usize;
        let (first, last) = (few(monitors(1)), few(monitors(THREADS)));
        let all = few((1..=THREADS).map(monitors).sum());
        let items = (1..=THREADS).any(|thread| tables.book.items(thread) > 0);
        let is_attached = |thread| tables.book.top(thread) == Top::Attached;
        let attached = (1..=THREADS).any(is_attached);
        let of_kind = |kind| few(tables.references.rows.count(|row| row[HANDLE] % 4 == kind));
        let (locals, globals, weaks) = (of_kind(LOCAL), of_kind(GLOBAL), of_kind(WEAK));
        self.show(format!("Z: {buffers} buffers, {critical} critical"));
        self.show(format!(
            "Z: {all} monitors, {first} of thread 1, {last} of thread 16"
        ));
        self.show(format!("Z: {globals} globals, {weaks} weaks"));
        self.show(format!("Z: {locals} locals, items {items}"));
        self.show(format!("Z: attached {attached}"));
    }

    fn top(&mut self, event: &Event) -> &'static str {
        match self.judge.tables().book.top(thread(event)) {
            Top::Nothing => "nothing",
            Top::Native => "native",
            Top::Attached => "attached",
            Top::Call { .. } => "call",
        }
    }
}

fn letter(event: &Event) -> char {
    let (letter, _) = event.parts().expect("an event that was read");
    letter.into()
}

/// The thread of an event; K, M and Z are of none.
fn thread(event: &Event) -> u32 {
    match *event {
        Event::N { thread, .. }
        | Event::X { thread, .. }
        | Event::C { thread, .. }
        | Event::R { thread, .. }
        | Event::A { thread, .. }
        | Event::D { thread }
        | Event::O { thread, .. } => thread,
        Event::K { .. } | Event::M { .. } | Event::Z => 0,
    }
}

fn kind(value: Handle) -> &'static str {
    match value % 4 {
        _ if value == 0 => "null",
        LOCAL => "local",
        GLOBAL => "global",
        WEAK => "weak",
        _ => "identity",
    }
}

/// The rule of a finding, and whether the whole line breaks it.
fn broken(found: &Finding) -> String {
    let by = if found.place == 0 { "line" } else { "place" };
    format!("{} by {by}", found.rule)
}

fn few(count: usize) -> &'static str {
    match count {
        0 => "no",
        1 => "one",
        _ => "more",
    }
}

fn lives(tables: &Tables) -> Vec<Life> {
    let rows = tables.references.rows.all_used();
    rows.map(|&[thread, handle, frame, line, _]| [thread, handle, frame, line])
        .collect()
}

fn buffer_of(&[thread, family, buffer, _]: &Pin) -> Buffer {
    [thread, family, buffer]
}

fn used<const NUMBERS: usize>(rows: &Rows<NUMBERS>) -> Vec<[Number; NUMBERS]> {
    rows.all_used().copied().collect()
}
