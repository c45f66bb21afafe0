//! Big traces that keep a balance of alive handles and outstanding buffers by chance: every line accepted, some condemned.

use super::accepted::Accepted;
use super::pool::Pool;
use super::slot::Slots;
use crate::class::{CLASS, FIRST_DECLARED, OBJECT};
use crate::facts::*;
use crate::lent::book::Top;
use crate::lent::lookup::{Buffers, Handles};
use crate::lent::references::owner;
use crate::limits::*;
use crate::line::Event;
use crate::random::Random;
use crate::room::LENT;
use crate::twin::ADDRESS;
use std::io::{self, Write};

const EXCEPTION_CLEAR: u32 = 17;
const NEW_GLOBAL_REF: u32 = 21;
const NEW_LOCAL_REF: u32 = 25;
const NEW_WEAK_GLOBAL_REF: u32 = 226;
/// The family of GetPrimitiveArrayCritical.
const CRITICAL_ARRAY: Family = Family(FIRST_CRITICAL as u8);

const LEAST_ASKED: i32 = 400;

/// Functions that use handles and make nothing.
const USES: [u32; 12] = [24, 32, 40, 50, 70, 80, 97, 104, 108, 154, 164, 171];
/// Of such functions those that take a class.
const CLASS_USES: [u32; 12] = [14, 32, 33, 70, 80, 94, 113, 120, 141, 144, 150, 216];

/// What a trace keeps about; chances are in percent.
#[derive(Clone, Copy, Debug)]
pub struct Balance {
    pub threads: u32,
    /// The most open items of a thread.
    pub deepest: usize,
    /// A native is entered in an open call.
    pub nested: u32,
    /// A native returns rather than calls.
    pub left: u32,
    /// A call uses handles rather than making or ending one.
    pub used: u32,
    /// One that does not use them gets or releases a buffer, if any are to be outstanding.
    pub pinned: u32,
    /// The alive handles about which makes and deletes keep balance.
    pub alive: usize,
    /// The most globals and weaks among them.
    pub shared: usize,
    /// As long as there are fewer alive, calls make handles and do nothing else.
    pub filled: bool,
    /// All handles have this slot of the proved judge's index.
    pub slot: Option<usize>,
    /// Envs, handles, identities and buffers are numbers such as a VM of 64 bits gives.
    pub wide: bool,
    /// The outstanding buffers about which gets and releases keep balance.
    pub outstanding: usize,
    /// Where it is not 0, handles come from N alone, and each call judges one by a chain of so many classes.
    pub chain: usize,
}

impl Balance {
    /// What a native that is never left asks for by 26: more than its thread's part of the alive handles.
    fn asked(&self) -> i32 {
        LEAST_ASKED.max(2 * self.alive as i32 / self.threads as i32)
    }

    /// From where numbers are counted.
    fn base(&self) -> Handle {
        if self.wide {
            ADDRESS
        } else {
            0
        }
    }
}

/// Writes a trace that keeps this balance, of so many lines, the last a Z.
pub fn write(balance: &Balance, trace: Accepted<impl Write>, lines: usize) -> io::Result<()> {
    let mut maker = Maker {
        balance,
        random: Random::new(lines as u64),
        trace,
        threads: Default::default(),
        is_full: !balance.filled,
        pool: Pool::new(balance.base()),
        declared: 0,
        globals_and_weaks: Vec::new(),
        buffers: Vec::new(),
        slots: balance.slot.map(Slots::new),
    };
    for _ in 1..lines {
        maker.line()?;
    }
    maker.trace.put(Event::Z)
}

/// What the maker knows of one thread beside the judge.
#[derive(Default)]
struct Held {
    /// The alive locals, those of inner natives last.
    locals: Vec<Handle>,
    /// How many of them a class was stated of.
    stated: usize,
    /// For each native, how many locals were alive before it.
    before: Vec<usize>,
    /// The critical buffers outstanding.
    critical: Vec<Handle>,
    /// On the way out of deep nesting.
    rising: bool,
}

struct Maker<'a, W: Write> {
    balance: &'a Balance,
    random: Random,
    trace: Accepted<'a, W>,
    threads: [Held; THREADS as usize],
    /// Whether there were once as many handles alive as are to be.
    is_full: bool,
    pool: Pool,
    declared: usize,
    globals_and_weaks: Vec<Handle>,
    /// The outstanding buffers that are not critical, with their families.
    buffers: Vec<(Family, Handle)>,
    slots: Option<Slots>,
}

impl<W: Write> Maker<'_, W> {
    fn line(&mut self) -> io::Result<()> {
        if let Some(statement) = self.pool.statement() {
            return self.trace.put(statement);
        }
        if self.declared < 2 * self.balance.chain {
            return self.declare();
        }
        let thread = self.random.between(1, self.balance.threads);
        let book = self.trace.judge.tables().book;
        let (depth, top) = (book.items(thread), book.top(thread));
        let deepest = self.balance.deepest;
        let held = self.held(thread);
        held.rising = depth == deepest || held.rising && depth > 0;
        let rising = held.rising && self.balance.nested > 0;
        let nested = if rising { 0 } else { self.balance.nested };
        let left = if rising { 60 } else { self.balance.left };
        match top {
            Top::Nothing => self.enter(thread),
            Top::Native if self.random.percent(left) => self.leave(thread),
            Top::Native if self.balance.chain > 0 => self.state_or_use(thread),
            Top::Native | Top::Attached => self.call(thread),
            Top::Call { .. } if self.random.percent(nested) => self.enter(thread),
            Top::Call { function, .. } => self.answer(thread, function),
        }
    }

    /// Two chains of classes, the first below class and the other below object.
    fn declare(&mut self) -> io::Result<()> {
        let class = FIRST_DECLARED + self.declared as Class;
        let superclass = match self.declared {
            0 => CLASS,
            first if first == self.balance.chain => OBJECT,
            _ => class - 1,
        };
        self.declared += 1;
        self.trace.put(Event::K { class, superclass })
    }

    /// The next handle of the thread gets its class, the foot of the first chain, or for its last handle that of the other; then they are used.
    fn state_or_use(&mut self, thread: u32) -> io::Result<()> {
        let (chain, held) = (self.balance.chain as Class, self.held(thread));
        let Some(&handle) = held.locals.get(held.stated) else {
            return self.use_classes(thread);
        };
        held.stated += 1;
        let is_last = held.stated == held.locals.len();
        let foot = FIRST_DECLARED - 1 + chain;
        let class = if is_last { foot + chain } else { foot };
        self.trace.put(Event::O {
            thread,
            handle,
            class,
        })
    }

    /// A call that takes a class, now and then with the handle that is none.
    fn use_classes(&mut self, thread: u32) -> io::Result<()> {
        let function = self.random.pick(&CLASS_USES);
        let facts = known(function);
        let (none, classes) = {
            let locals = &self.threads[thread as usize - 1].locals;
            let (none, classes) = locals.split_last().expect("handles of N");
            (*none, classes.to_vec())
        };
        let places = [0, 1, 2].map(|index| match (facts.places[index], facts.classes[index]) {
            (PlaceKind::Unused, _) => 0,
            (PlaceKind::Identity(wanted), _) => self.pool.pick(wanted, &mut self.random),
            (_, Some(_)) if self.random.below(300) == 0 => none,
            _ => self.random.pick(&classes),
        });
        self.put_call(thread, function, places, 0)
    }

    fn enter(&mut self, thread: u32) -> io::Result<()> {
        let mut handles = [0; MOST_HANDLES];
        let count = if self.balance.chain > 0 {
            MOST_HANDLES
        } else {
            1 + self.random.below(3)
        };
        for index in 0..count {
            handles[index] = self.fresh(thread, LOCAL, &handles);
        }
        let held = self.held(thread);
        held.before.push(held.locals.len());
        held.locals.extend(&handles[..count]);
        self.trace.put(Event::N {
            thread,
            env: self.env_of(thread),
            count,
            handles,
        })
    }

    fn leave(&mut self, thread: u32) -> io::Result<()> {
        let result = if self.random.percent(50) {
            self.handle(thread)
        } else {
            0
        };
        let held = self.held(thread);
        let before = held.before.pop().unwrap_or(0);
        held.locals.truncate(before);
        self.trace.put(Event::X { thread, result })
    }

    fn call(&mut self, thread: u32) -> io::Result<()> {
        let book = self.trace.judge.tables().book;
        let is_pending = book.is_pending(thread);
        let capacity = book.capacity(thread, book.frames(thread));
        let asked = self.balance.asked();
        if self.balance.nested == 0 && capacity < asked as Word {
            return self.put_call(thread, ENSURE_LOCAL_CAPACITY, [0; 3], asked);
        }
        if is_pending && self.random.percent(80) {
            return self.put_call(thread, EXCEPTION_CLEAR, [0; 3], 0);
        }
        if let Some(&buffer) = self.held(thread).critical.last() {
            if self.random.percent(5) {
                return self.use_handles(thread);
            }
            self.held(thread).critical.pop();
            let places = [self.handle(thread), buffer, 0];
            return self.put_call(thread, CRITICAL_ARRAY.release(), places, 0);
        }
        if !self.is_full {
            self.make_or_delete(thread)
        } else if self.random.percent(self.balance.used) {
            self.use_handles(thread)
        } else if self.balance.outstanding > 0 && self.random.percent(self.balance.pinned) {
            self.get_or_release(thread)
        } else {
            self.make_or_delete(thread)
        }
    }

    fn use_handles(&mut self, thread: u32) -> io::Result<()> {
        let function = self.random.pick(&USES);
        let kinds = known(function).places;
        let places = kinds.map(|kind| match kind {
            PlaceKind::Unused => 0,
            PlaceKind::Identity(wanted) => self.pool.pick(wanted, &mut self.random),
            _ if self.random.below(300) == 0 => self.any(thread, LOCAL),
            _ => self.handle(thread),
        });
        self.put_call(thread, function, places, 0)
    }

    fn make_or_delete(&mut self, thread: u32) -> io::Result<()> {
        let alive = self.trace.judge.tables().references.used();
        let spread = self.balance.alive / 100 + 1;
        self.is_full |= alive + spread >= self.balance.alive;
        let few = self.held(thread).locals.len() < 4;
        let makes = if few || alive + spread < self.balance.alive {
            true
        } else {
            alive < self.balance.alive + spread && self.random.percent(50)
        };
        if makes {
            let function = match self.random.below(25) {
                0 | 1 if self.globals_and_weaks.len() < self.balance.shared => NEW_GLOBAL_REF,
                2 if self.globals_and_weaks.len() < self.balance.shared => NEW_WEAK_GLOBAL_REF,
                _ => NEW_LOCAL_REF,
            };
            let object = self.handle(thread);
            return self.put_call(thread, function, [object, 0, 0], 0);
        }
        let deleted = self.remove_handle(thread);
        let function = match deleted % 4 {
            GLOBAL => DELETE_GLOBAL_REF,
            WEAK => DELETE_WEAK_GLOBAL_REF,
            _ => DELETE_LOCAL_REF,
        };
        self.put_call(thread, function, [deleted, 0, 0], 0)
    }

    fn get_or_release(&mut self, thread: u32) -> io::Result<()> {
        let array = self.handle(thread);
        let outstanding = self.trace.judge.tables().pins.used();
        if outstanding < LENT.pins - THREADS as usize && self.random.percent(4) {
            return self.put_call(thread, CRITICAL_ARRAY.get(), [array, 0, 0], 0);
        }
        let gets = if outstanding + 10 < self.balance.outstanding {
            true
        } else {
            outstanding < self.balance.outstanding && self.random.percent(50)
        };
        if gets || self.buffers.is_empty() {
            let (get, _) = self.random.pick(&FAMILIES[..FIRST_CRITICAL]);
            return self.put_call(thread, get, [array, 0, 0], 0);
        }
        let index = self.random.below(self.buffers.len());
        let (family, buffer) = self.buffers.swap_remove(index);
        self.put_call(thread, family.release(), [array, buffer, 0], 0)
    }

    fn answer(&mut self, thread: u32, function: u32) -> io::Result<()> {
        let kind = known(function).result;
        let tables = self.trace.judge.tables();
        let (rows_left, pins_left) = (tables.references.free(), tables.pins.free());
        let result = match kind {
            ResultKind::Local if rows_left > 0 => {
                let handle = self.fresh(thread, LOCAL, &[]);
                self.held(thread).locals.push(handle);
                handle
            }
            ResultKind::Global | ResultKind::Weak if rows_left > 0 => {
                let remainder = if kind == ResultKind::Global {
                    GLOBAL
                } else {
                    WEAK
                };
                let handle = self.fresh(thread, remainder, &[]);
                self.globals_and_weaks.push(handle);
                handle
            }
            ResultKind::Buffer(family) if pins_left > 0 => {
                let buffer = self.balance.base() + 1 + self.random.below(1 << 31) as Handle;
                if family.is_critical() {
                    self.held(thread).critical.push(buffer);
                } else {
                    self.buffers.push((family, buffer));
                }
                buffer
            }
            _ => 0,
        };
        let pending = self.balance.chain == 0 && self.random.below(300) == 0;
        self.trace.put(Event::R {
            thread,
            function,
            result: result.into(),
            pending: pending.into(),
        })
    }

    fn put_call(
        &mut self,
        thread: u32,
        function: u32,
        places: [Handle; 3],
        capacity: i32,
    ) -> io::Result<()> {
        let env = match self.random.below(1_000) {
            0 => self.env_of(thread) + 1,
            _ => self.env_of(thread),
        };
        self.trace.put(Event::C {
            thread,
            env,
            function,
            places,
            capacity,
        })
    }

    fn held(&mut self, thread: u32) -> &mut Held {
        &mut self.threads[thread as usize - 1]
    }

    /// A handle the thread may use, or null if it has none.
    fn handle(&mut self, thread: u32) -> Handle {
        if self.random.percent(20) && !self.globals_and_weaks.is_empty() {
            return self.random.pick(&self.globals_and_weaks);
        }
        let locals = &self.threads[thread as usize - 1].locals;
        match locals.len() {
            0 => 0,
            alive => locals[self.random.below(alive)],
        }
    }

    /// Takes out a handle for the thread to delete: a global or weak, or a local of its top native.
    fn remove_handle(&mut self, thread: u32) -> Handle {
        if self.random.percent(8) && !self.globals_and_weaks.is_empty() {
            let index = self.random.below(self.globals_and_weaks.len());
            return self.globals_and_weaks.swap_remove(index);
        }
        let held = &mut self.threads[thread as usize - 1];
        let before = held.before.last().copied().unwrap_or(0);
        match held.locals.len() - before {
            0 => 0,
            own => {
                let index = before + self.random.below(own);
                held.locals.swap_remove(index)
            }
        }
    }

    /// A handle not alive and not among those named.
    fn fresh(&mut self, thread: u32, kind: Handle, named: &[Handle]) -> Handle {
        loop {
            let handle = self.any(thread, kind);
            let references = self.trace.judge.tables().references;
            if !named.contains(&handle) && !references.is_alive(thread, handle) {
                return handle;
            }
        }
    }

    /// A handle of this kind, alive or not; where all have one slot, one of twice as many as are alive and a few.
    fn any(&mut self, thread: u32, kind: Handle) -> Handle {
        let owner = owner(thread, kind);
        let alive = match owner {
            0 => self.globals_and_weaks.len(),
            _ => self.held(thread).locals.len(),
        };
        match &mut self.slots {
            None => self.number(kind),
            Some(slots) => slots.handle(owner, kind, self.random.below(2 * alive + 16)),
        }
    }

    /// A nonzero number with this remainder by 4.
    fn number(&mut self, remainder: Handle) -> Handle {
        self.balance.base() + 4 * Handle::from(self.random.between(1, (1 << 30) - 1)) + remainder
    }

    fn env_of(&self, thread: u32) -> Handle {
        self.balance.base() + 0x7f00_0000 + 0x100 * Handle::from(thread)
    }
}
