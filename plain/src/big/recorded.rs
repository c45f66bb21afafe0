//! Big traces such as a recorder makes of Java programs whose libraries call JNI.
//!
//! The mix is that of recorded ones: a compressor, a search library, the bindings of a toolkit and a bridge by which C calls Java. Natives are
//! short: of ten, four call nothing and two one function, and few call more than ten. They have one to three arguments, and return null mostly.
//! They read and write fields, ask for the length of arrays, get critical arrays and strings and release them at once, enter a monitor; some call
//! Java in a frame of their own, which enters natives in turn. Handles and buffers have small numbers, given in their order and not again; a few
//! dozen handles are alive, most of them globals and weaks of classes, made when the library is loaded. An exception is hardly ever pending, and
//! now and then C uses a local that it kept from an earlier native. Sixteen threads take turns of some twenty lines. No class of a handle is stated; methods
//! and fields are, when the library is loaded, and a field again each time it is asked for.

use super::accepted::Accepted;
use crate::class::OBJECT;
use crate::facts::*;
use crate::identity::{FIELD, METHOD};
use crate::limits::*;
use crate::line::Event;
use crate::random::Random;
use std::collections::VecDeque;
use std::io::{self, Write};

/// Functions by what the natives do.
const FIND_CLASS: u32 = 6;
const EXCEPTION_OCCURRED: u32 = 15;
const EXCEPTION_CLEAR: u32 = 17;
const NEW_GLOBAL_REF: u32 = 21;
const NEW_LOCAL_REF: u32 = 25;
const NEW_OBJECT: u32 = 28;
const IS_INSTANCE_OF: u32 = 32;
const CALL_OBJECT_METHOD: u32 = 34;
const GET_FIELD_ID: u32 = 94;
const GET_INT_FIELD: u32 = 100;
const GET_LONG_FIELD: u32 = 101;
const SET_LONG_FIELD: u32 = 110;
const NEW_STRING: u32 = 163;
const GET_STRING_LENGTH: u32 = 164;
const NEW_STRING_UTF: u32 = 167;
const GET_ARRAY_LENGTH: u32 = 171;
const NEW_OBJECT_ARRAY: u32 = 172;
const SET_OBJECT_ARRAY_ELEMENT: u32 = 174;
const NEW_WEAK_GLOBAL_REF: u32 = 226;
const EXCEPTION_CHECK: u32 = 228;
const UTF: Family = Family(1);
const BYTES: Family = Family(3);
const CRITICAL_ARRAY: Family = Family(10);
const CRITICAL_STRING: Family = Family(11);

/// The classes kept by a global or a weak.
const CLASSES: usize = 24;
/// The methods and the fields, whose identities come in turn.
const METHODS: u32 = 30;
const FIELDS: u32 = 60;
/// The locals a frame is pushed for.
const ASKED: i32 = 16;

/// Writes such a trace of so many lines, the last a Z.
pub fn write(mut trace: Accepted<impl Write>, lines: usize) -> io::Result<()> {
    let mut recorder = Recorder::new(lines as u64);
    for _ in 1..lines {
        trace.put(recorder.next())?;
    }
    trace.put(Event::Z)
}

struct Recorder {
    random: Random,
    /// The thread whose turn it is, and the lines of each that are to come.
    thread: u32,
    coming: [VecDeque<Event>; THREADS as usize],
    /// As long as the library is loaded, no other thread comes.
    is_loading: bool,
    /// The last handle given of each kind.
    given: [Handle; WEAK as usize + 1],
    buffers: Handle,
    classes: Vec<Handle>,
    /// The global that a native of each thread made and the next such one deletes.
    globals: [Option<Handle>; THREADS as usize],
    /// The local that C kept.
    kept: Handle,
}

impl Recorder {
    fn new(seed: u64) -> Recorder {
        let mut recorder = Recorder {
            random: Random::new(seed),
            thread: 1,
            coming: Default::default(),
            is_loading: true,
            given: [0, LOCAL, GLOBAL, WEAK],
            buffers: 0,
            classes: Vec::new(),
            globals: [None; THREADS as usize],
            kept: 0,
        };
        recorder.load();
        recorder
    }

    fn next(&mut self) -> Event {
        let is_over = self.coming().is_empty();
        if is_over || !self.is_loading && self.random.percent(5) {
            self.is_loading = false;
            self.thread = self.random.between(1, THREADS);
            if self.coming().is_empty() {
                self.native();
            }
        }
        self.coming().pop_front().expect("a line")
    }

    /// The native that is entered when the library is loaded.
    fn load(&mut self) {
        let [library] = self.enter();
        self.kept = library;
        for index in 0..CLASSES {
            let class = self.call(FIND_CLASS, [0; 3]);
            let keep = [NEW_GLOBAL_REF, NEW_WEAK_GLOBAL_REF][index % 2];
            let kept = self.call(keep, [class, 0, 0]);
            self.classes.push(kept);
            self.call(DELETE_LOCAL_REF, [class, 0, 0]);
        }
        for index in 0..METHODS {
            self.state(method(index), METHOD);
        }
        for index in 0..FIELDS {
            self.state(field(index), FIELD);
        }
        self.leave(0);
    }

    /// The lines of one native of the thread.
    fn native(&mut self) {
        match self.random.below(100) {
            0..42 => self.idle(),
            42..62 => self.field(),
            62..67 => self.identities(),
            67..82 => self.region(),
            82..88 => self.string(),
            88..91 => self.array(),
            91..94 => self.monitor(),
            94..97 => self.result(),
            97 => self.global(),
            _ => self.call_back(),
        }
    }

    fn idle(&mut self) {
        let [_] = self.enter();
        self.leave(0);
    }

    fn field(&mut self) {
        let [object] = self.enter();
        let object = match self.random.below(50) {
            0 => self.kept,
            _ => object,
        };
        let function = self.random.pick(&[GET_LONG_FIELD, SET_LONG_FIELD]);
        self.use_field(function, object);
        self.leave(0);
    }

    fn identities(&mut self) {
        let [object] = self.enter();
        let class = self.call(GET_OBJECT_CLASS, [object, 0, 0]);
        for _ in 0..2 {
            let field = self.call(GET_FIELD_ID, [class, 0, 0]);
            self.state(field, FIELD);
        }
        self.leave(0);
    }

    fn region(&mut self) {
        let [object, from, to] = self.enter();
        for array in [to, from] {
            self.call(GET_ARRAY_LENGTH, [array, 0, 0]);
        }
        self.use_field(GET_LONG_FIELD, object);
        let buffers = [from, to].map(|array| (array, self.get(CRITICAL_ARRAY, array)));
        for (array, buffer) in buffers.into_iter().rev() {
            self.release(CRITICAL_ARRAY, array, buffer);
        }
        if self.random.percent(40) {
            self.use_field(SET_LONG_FIELD, object);
        }
        self.leave(0);
    }

    fn string(&mut self) {
        let [_, _, string] = self.enter();
        let buffer = self.get(UTF, string);
        self.release(UTF, string, buffer);
        self.leave(0);
    }

    fn array(&mut self) {
        let [_, _, array] = self.enter();
        let buffer = self.get(BYTES, array);
        self.call(GET_ARRAY_LENGTH, [array, 0, 0]);
        self.release(BYTES, array, buffer);
        self.leave(0);
    }

    fn monitor(&mut self) {
        let [object, string] = self.enter();
        self.call(MONITOR_ENTER, [object, 0, 0]);
        self.call(GET_STRING_LENGTH, [string, 0, 0]);
        let buffer = self.get(CRITICAL_STRING, string);
        self.release(CRITICAL_STRING, string, buffer);
        self.call(MONITOR_EXIT, [object, 0, 0]);
        self.leave(0);
    }

    fn result(&mut self) {
        let [_] = self.enter();
        let function = self.random.pick(&[NEW_STRING, NEW_STRING_UTF]);
        let string = self.call(function, [0; 3]);
        self.leave(string);
    }

    fn global(&mut self) {
        let [object] = self.enter();
        let thread = self.thread as usize - 1;
        self.globals[thread] = match self.globals[thread] {
            None => Some(self.call(NEW_GLOBAL_REF, [object, 0, 0])),
            Some(global) => {
                self.call(DELETE_GLOBAL_REF, [global, 0, 0]);
                None
            }
        };
        self.leave(0);
    }

    fn call_back(&mut self) {
        let [_, _] = self.enter();
        for _ in 0..1 + self.random.below(3) {
            self.call(PUSH_LOCAL_FRAME, [0; 3]);
            let [array_class, class, other] = [(); 3].map(|_| self.random.pick(&self.classes));
            let object = self.call(NEW_LOCAL_REF, [other, 0, 0]);
            self.call(IS_SAME_OBJECT, [object, 0, 0]);
            let array = self.call(NEW_OBJECT_ARRAY, [array_class, 0, 0]);
            for _ in 0..2 {
                let identity = self.some_method();
                let element = self.call(NEW_OBJECT, [class, identity, 0]);
                self.call(SET_OBJECT_ARRAY_ELEMENT, [array, element, 0]);
            }
            let identity = self.some_method();
            self.open(CALL_OBJECT_METHOD, [object, identity, 0]);
            for _ in 0..2 {
                let [_, _] = self.enter();
                self.leave(0);
            }
            if self.random.below(100) == 0 {
                self.throw();
            } else {
                let result = self.made(CALL_OBJECT_METHOD);
                self.close(CALL_OBJECT_METHOD, result, 0);
                self.call(EXCEPTION_CHECK, [0; 3]);
                for _ in 0..6 {
                    let class = self.random.pick(&self.classes);
                    self.call(IS_INSTANCE_OF, [result, class, 0]);
                }
                self.use_field(GET_INT_FIELD, result);
            }
            self.open(POP_LOCAL_FRAME, [0; 3]);
            self.close(POP_LOCAL_FRAME, 0, 0);
        }
        self.leave(0);
    }

    /// The method throws, and the exception is asked for and cleared.
    fn throw(&mut self) {
        self.close(CALL_OBJECT_METHOD, 0, 1);
        self.open(EXCEPTION_CHECK, [0; 3]);
        self.close(EXCEPTION_CHECK, 0, 1);
        self.open(EXCEPTION_OCCURRED, [0; 3]);
        let thrown = self.made(EXCEPTION_OCCURRED);
        self.close(EXCEPTION_OCCURRED, thrown, 1);
        self.call(EXCEPTION_CLEAR, [0; 3]);
    }

    fn use_field(&mut self, function: u32, object: Handle) {
        let identity = self.some_field();
        self.call(function, [object, identity, 0]);
    }

    fn get(&mut self, family: Family, object: Handle) -> Handle {
        self.call(family.get(), [object, 0, 0])
    }

    fn release(&mut self, family: Family, object: Handle, buffer: Handle) {
        self.call(family.release(), [object, buffer, 0]);
    }

    // ---- lines

    /// N with so many arguments.
    fn enter<const COUNT: usize>(&mut self) -> [Handle; COUNT] {
        let named = [(); COUNT].map(|_| self.give(LOCAL));
        let mut handles = [0; MOST_HANDLES];
        handles[..COUNT].copy_from_slice(&named);
        let thread = self.thread;
        self.coming().push_back(Event::N {
            thread,
            env: env_of(thread),
            count: COUNT,
            handles,
        });
        named
    }

    fn leave(&mut self, result: Handle) {
        let thread = self.thread;
        self.coming().push_back(Event::X { thread, result });
    }

    /// C and R, without an exception; its result.
    fn call(&mut self, function: u32, places: [Handle; 3]) -> Handle {
        self.open(function, places);
        let result = self.made(function);
        self.close(function, result, 0);
        result
    }

    fn open(&mut self, function: u32, places: [Handle; 3]) {
        let thread = self.thread;
        let capacity = if known(function).uses_capacity {
            ASKED
        } else {
            0
        };
        self.coming().push_back(Event::C {
            thread,
            env: env_of(thread),
            function,
            places,
            capacity,
        });
    }

    fn close(&mut self, function: u32, result: Handle, pending: u32) {
        let thread = self.thread;
        self.coming().push_back(Event::R {
            thread,
            function,
            result: result.into(),
            pending,
        });
    }

    fn state(&mut self, identity: Handle, sort: u32) {
        self.coming().push_back(Event::M {
            identity,
            sort,
            class: OBJECT,
            is_static: 0,
            is_final: 0,
        });
    }

    fn coming(&mut self) -> &mut VecDeque<Event> {
        &mut self.coming[self.thread as usize - 1]
    }

    // ---- numbers

    /// What a function makes; a status is 0.
    fn made(&mut self, function: u32) -> Handle {
        match known(function).result {
            ResultKind::Local => self.give(LOCAL),
            ResultKind::Global => self.give(GLOBAL),
            ResultKind::Weak => self.give(WEAK),
            ResultKind::Identity => self.some_field(),
            ResultKind::Buffer(_) => {
                self.buffers += 1;
                self.buffers
            }
            ResultKind::Nothing | ResultKind::Status => 0,
        }
    }

    fn give(&mut self, kind: Handle) -> Handle {
        let given = &mut self.given[kind as usize];
        *given += 4;
        *given
    }

    fn some_method(&mut self) -> Handle {
        method(self.random.between(0, METHODS - 1))
    }

    fn some_field(&mut self) -> Handle {
        field(self.random.between(0, FIELDS - 1))
    }
}

fn method(index: u32) -> Handle {
    4 * Handle::from(1 + index)
}

fn field(index: u32) -> Handle {
    4 * Handle::from(1 + METHODS + index)
}

fn env_of(thread: u32) -> Handle {
    100 + Handle::from(thread)
}
