//! One step over the tables: a line's findings or the number of its refusal, and what an accepted line leaves.

use super::book::Top;
use super::lookup::{Buffers, Handles, Identities};
use super::Tables;
use crate::class::CLASS;
use crate::facts::*;
use crate::findings::Findings;
use crate::identity::Stated;
use crate::limits::*;
use crate::line::{self, Event};
use crate::refusal::*;

impl<H: Handles, B: Buffers, I: Identities> Tables<'_, H, B, I> {
    /// Judges one lent line; a refused line changes nothing.
    pub fn step(&mut self, line: &[u8]) -> Result<Findings, Refusal> {
        if self.is_unfit() {
            return Err(UNFIT_TABLES);
        }
        self.step_from_start(line)
    }

    /// Refusal 8.
    pub fn is_unfit(&self) -> bool {
        self.book.is_unfit() || self.classes.is_short()
    }

    /// The same over tables that are fit, as all are from a start.
    pub(crate) fn step_from_start(&mut self, line: &[u8]) -> Result<Findings, Refusal> {
        if self.book.lines() == MOST_LINES.into() {
            return Err(NO_LINE);
        }
        let event = line::read(line)?;
        if self.book.is_closed() {
            return Err(OUT_OF_STEP);
        }
        let mut findings = Findings::new(self.line_number());
        match event {
            Event::N {
                thread,
                env,
                count,
                handles,
            } => self.enter(thread, env, &handles[..count])?,
            Event::X { thread, result } => self.leave(thread, result, &mut findings)?,
            Event::C {
                thread,
                env,
                function,
                places,
                capacity,
            } => self.call(thread, env, function, places, capacity, &mut findings)?,
            Event::R {
                thread,
                function,
                result,
                pending,
            } => self.answer(thread, function, result, pending, &mut findings)?,
            Event::A { thread, env } => self.attach(thread, env)?,
            Event::D { thread } => self.detach(thread, &mut findings)?,
            Event::K { class, superclass } => self.declare(class, superclass)?,
            Event::O {
                thread,
                handle,
                class,
            } => self.state(thread, handle, class)?,
            Event::M {
                identity,
                sort,
                class,
                is_static,
                is_final,
            } => {
                let stated = Stated {
                    sort: sort.into(),
                    is_static: is_static.into(),
                    is_final: is_final.into(),
                };
                self.identify(identity, class, stated)?
            }
            Event::Z => self.close(&mut findings),
        }
        self.book.count_line();
        Ok(findings)
    }

    /// The number of the line that is judged.
    fn line_number(&self) -> u32 {
        self.book.lines() as u32 + 1
    }

    /// N: Java enters native.
    fn enter(&mut self, thread: u32, env: Handle, handles: &[Handle]) -> Result<(), Refusal> {
        if let Top::Native | Top::Attached = self.book.top(thread) {
            return Err(OUT_OF_STEP);
        }
        self.try_env(thread, env)?;
        for (index, &handle) in handles.iter().enumerate() {
            if handles[..index].contains(&handle) || self.references.is_alive(thread, handle) {
                return Err(ALREADY_ALIVE);
            }
        }
        if handles.len() > self.references.free()
            || self.book.items(thread) == MOST_ITEMS
            || self.book.frames(thread) == MOST_FRAMES
        {
            return Err(NO_ROOM);
        }

        self.book.set_env(thread, env);
        self.book.set_pending(thread, 0);
        let capacity = NEW_LOCALS + handles.len() as u32;
        self.book.push_frame(thread, capacity, false);
        self.book.push_native(thread);
        let (frame, line) = (self.book.frames(thread), self.line_number());
        for &handle in handles {
            self.references.make(thread, handle, frame, line);
        }
        Ok(())
    }

    /// Refusal 5: an env is that of its thread's first N or A, and no two threads share one.
    fn try_env(&self, thread: u32, env: Handle) -> Result<(), Refusal> {
        let own = self.book.env(thread);
        let is_others = |other| other != thread && self.book.env(other) == env;
        if own != 0 && own != env || (1..=THREADS).any(is_others) {
            return Err(WRONG_ENV);
        }
        Ok(())
    }

    /// X: a native returns to Java.
    fn leave(
        &mut self,
        thread: u32,
        result: Handle,
        findings: &mut Findings,
    ) -> Result<(), Refusal> {
        if self.book.top(thread) != Top::Native {
            return Err(OUT_OF_STEP);
        }

        if self.pins.has_critical(thread) {
            findings.add(3, 0, 0);
        }
        if let Some(rule) = self.breach(thread, PlaceKind::HandleOrNull, None, result) {
            findings.add(rule, 1, result);
        }

        self.end_frames_from(thread, self.book.native_frame(thread));
        self.book.pop_item(thread);
        Ok(())
    }

    /// C: C calls a JNI function.
    fn call(
        &mut self,
        thread: u32,
        env: Handle,
        function: u32,
        places: [Handle; 3],
        capacity: i32,
        findings: &mut Findings,
    ) -> Result<(), Refusal> {
        if !matches!(self.book.top(thread), Top::Native | Top::Attached) {
            return Err(OUT_OF_STEP);
        }
        // From a start only an N can be item 65; in a foreign book a native or an attached item may be item 64.
        if self.book.items(thread) == MOST_ITEMS {
            return Err(NO_ROOM);
        }
        let facts = known(function);
        let top_is_pushed = self.book.is_top_pushed(thread);

        if self.book.env(thread) != env {
            findings.add(1, 0, env);
        }
        if self.book.is_pending(thread) && !facts.allowed_pending {
            findings.add(2, 0, 0);
        }
        if !facts.allowed_critical && self.pins.has_critical(thread) {
            findings.add(3, 0, 0);
        }
        if function == MONITOR_EXIT && self.book.monitors(thread) == 0 {
            findings.add(9, 0, 0);
        }
        if function == POP_LOCAL_FRAME && !top_is_pushed {
            findings.add(11, 0, 0);
        }
        for (index, value) in places.into_iter().enumerate() {
            let (kind, fixed) = (facts.places[index], facts.classes[index]);
            if let Some(rule) = self.breach(thread, kind, fixed, value) {
                findings.add(rule, index as u8 + 1, value);
            }
        }

        let [a, b, _] = places;
        match function {
            DELETE_GLOBAL_REF if a % 4 == GLOBAL => self.references.end(thread, a),
            DELETE_LOCAL_REF if a % 4 == LOCAL => self.references.end(thread, a),
            DELETE_WEAK_GLOBAL_REF if a % 4 == WEAK => self.references.end(thread, a),
            POP_LOCAL_FRAME if top_is_pushed => {
                self.end_frames_from(thread, self.book.frames(thread))
            }
            _ => {}
        }
        if let PlaceKind::Buffer(family) = facts.places[1] {
            self.pins.release(thread, family, b);
        }
        self.book
            .push_call(thread, function, capacity.max(0) as u32);
        Ok(())
    }

    /// R: the function returns.
    fn answer(
        &mut self,
        thread: u32,
        function: u32,
        result: Field,
        pending: u32,
        findings: &mut Findings,
    ) -> Result<(), Refusal> {
        let asked = match self.book.top(thread) {
            Top::Call {
                function: open,
                asked,
            } if open == function => asked,
            _ => return Err(OUT_OF_STEP),
        };
        let kind = known(function).result;
        let frame = self.book.frames(thread);
        let made = line::made(result);
        match kind {
            ResultKind::Local | ResultKind::Global | ResultKind::Weak if made != 0 => {
                if self.references.is_alive(thread, made) {
                    return Err(ALREADY_ALIVE);
                }
                if self.references.free() == 0 {
                    return Err(NO_ROOM);
                }
                let line = self.line_number();
                self.references.make(thread, made, frame, line);
                if function == GET_OBJECT_CLASS {
                    self.references.state(thread, made, CLASS);
                }
            }
            ResultKind::Buffer(family) if made != 0 => {
                if self.pins.free() == 0 {
                    return Err(NO_ROOM);
                }
                self.pins.get(thread, family, made, self.line_number());
            }
            ResultKind::Status if result == 0 => self.succeed(thread, function, asked)?,
            _ => {}
        }

        if kind == ResultKind::Local
            && made != 0
            && self.references.locals_alive_in(thread, frame) as Word
                > self.book.capacity(thread, frame)
        {
            findings.add(11, 0, made);
        }
        self.book.set_pending(thread, pending);
        self.book.pop_item(thread);
        Ok(())
    }

    /// What a status of 0 does.
    fn succeed(&mut self, thread: u32, function: u32, asked: u32) -> Result<(), Refusal> {
        let frame = self.book.frames(thread);
        match function {
            PUSH_LOCAL_FRAME if frame == MOST_FRAMES => return Err(NO_ROOM),
            PUSH_LOCAL_FRAME => self.book.push_frame(thread, asked, true),
            ENSURE_LOCAL_CAPACITY => {
                let alive = self.references.locals_alive_in(thread, frame) as Word;
                let old = self.book.capacity(thread, frame);
                let raised = old.max(alive + Word::from(asked));
                self.book.set_capacity(thread, frame, raised);
            }
            MONITOR_ENTER => self.book.add_monitor(thread),
            MONITOR_EXIT => self.book.take_monitor(thread),
            _ => {}
        }
        Ok(())
    }

    /// A: a C thread attaches itself.
    fn attach(&mut self, thread: u32, env: Handle) -> Result<(), Refusal> {
        if self.book.top(thread) != Top::Nothing {
            return Err(OUT_OF_STEP);
        }
        self.try_env(thread, env)?;
        // It is the first item; only in a foreign book there are frames before it.
        if self.book.frames(thread) == MOST_FRAMES {
            return Err(NO_ROOM);
        }

        self.book.set_env(thread, env);
        self.book.set_pending(thread, 0);
        self.book.push_frame(thread, NEW_LOCALS, false);
        self.book.push_attached(thread);
        Ok(())
    }

    /// D: a C thread detaches itself.
    fn detach(&mut self, thread: u32, findings: &mut Findings) -> Result<(), Refusal> {
        if self.book.top(thread) != Top::Attached {
            return Err(OUT_OF_STEP);
        }

        if self.pins.has_critical(thread) {
            findings.add(3, 0, 0);
        }
        let monitors = self.book.monitors(thread);
        if monitors > 0 {
            findings.add(9, 0, monitors);
        }

        self.end_frames_from(thread, 1);
        self.book.clear_monitors(thread);
        self.book.pop_item(thread);
        Ok(())
    }

    /// K: a class is declared.
    fn declare(&mut self, class: Class, superclass: Class) -> Result<(), Refusal> {
        if self.classes.is_known(class) || !self.classes.is_known(superclass) {
            return Err(WRONG_CLASS);
        }
        self.classes.declare(class, superclass);
        Ok(())
    }

    /// O: the class of a handle is stated.
    fn state(&mut self, thread: u32, handle: Handle, class: Class) -> Result<(), Refusal> {
        if !self.classes.is_known(class) {
            return Err(WRONG_CLASS);
        }
        // Null and identities are no handles, also where a foreign row has such a number.
        if handle.is_multiple_of(4) || !self.references.is_alive(thread, handle) {
            return Err(NOT_ALIVE);
        }
        self.references.state(thread, handle, class);
        Ok(())
    }

    /// M: an identity is stated. Its class is kept nowhere.
    fn identify(&mut self, identity: Handle, class: Class, stated: Stated) -> Result<(), Refusal> {
        if !self.classes.is_known(class) {
            return Err(WRONG_CLASS);
        }
        if !self.identities.has_room_for(identity) {
            return Err(NO_ROOM);
        }
        self.identities.state(identity, stated);
        Ok(())
    }

    /// Z: end of the run.
    fn close(&mut self, findings: &mut Findings) {
        let buffers = self.pins.used() as Word;
        let monitors = (1..=THREADS).map(|thread| self.book.monitors(thread)).sum();
        let globals_and_weaks = self.references.globals_and_weaks_alive() as Word;
        for (rule, count) in [(8, buffers), (9, monitors), (10, globals_and_weaks)] {
            if count > 0 {
                findings.add(rule, 0, count);
            }
        }
        self.book.close();
    }

    /// The thread's frames from this one up end, and their locals.
    fn end_frames_from(&mut self, thread: u32, frame: usize) {
        self.references.end_locals_from(thread, frame);
        self.book.set_frames(thread, frame - 1);
    }

    /// The rule a value breaks in a place, for which a class may be fixed: the first that fits.
    fn breach(
        &self,
        thread: u32,
        kind: PlaceKind,
        fixed: Option<Class>,
        value: Handle,
    ) -> Option<u8> {
        match kind {
            PlaceKind::Unused => None,
            PlaceKind::Handle | PlaceKind::Identity(_) | PlaceKind::Buffer(_) if value == 0 => {
                Some(7)
            }
            PlaceKind::Identity(_) if !value.is_multiple_of(4) => Some(4),
            PlaceKind::Identity(wanted) => wanted.breach(self.identities.stated(value)),
            PlaceKind::Buffer(family) => {
                (!self.pins.is_outstanding(thread, family, value)).then_some(8)
            }
            _ if value == 0 => None,
            _ if value.is_multiple_of(4) => Some(4),
            PlaceKind::Local if value % 4 != LOCAL => Some(4),
            PlaceKind::Global if value % 4 != GLOBAL => Some(4),
            PlaceKind::Weak if value % 4 != WEAK => Some(4),
            _ => match self.references.stated_class(thread, value) {
                None if value % 4 == LOCAL => Some(11),
                None => Some(10),
                Some(stated) => self.is_of_another_class(stated, fixed?).then_some(4),
            },
        }
    }

    /// Whether a class is stated that is neither the fixed one nor below it.
    fn is_of_another_class(&self, stated: Number, fixed: Class) -> bool {
        stated != 0 && !self.classes.is_within(stated, fixed)
    }
}
