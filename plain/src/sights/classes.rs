//! What classes show: how each handle came to its class or to none, how that stands to its place, and what an earlier class would have told.

use super::{few, kind, letter, thread};
use crate::class::FIRST_DECLARED;
use crate::facts::*;
use crate::lent::classes::is_reserved;
use crate::lent::lookup::Handles;
use crate::lent::references::{self, CLASS, HANDLE};
use crate::lent::rows::THREAD;
use crate::lent::Tables;
use crate::limits::{Class, Handle, Number, THREADS};
use crate::line::{self, Event};
use crate::standing::Standing;
use std::collections::BTreeMap;

const NEW_GLOBAL_REF: u32 = 21;
const NEW_LOCAL_REF: u32 = 25;
const NEW_WEAK_GLOBAL_REF: u32 = 226;

/// The thread in its row, and the handle.
type Key = (Number, Handle);

#[derive(Default)]
pub struct Classed {
    handles: BTreeMap<Key, Came>,
    /// The last class of each handle, also of one that has ended.
    last: BTreeMap<Key, Number>,
    /// Of each open call of a thread, the class of what stands in place a.
    open: BTreeMap<u32, Vec<Number>>,
}

/// How a handle came to its class, or to none.
#[derive(Clone, Default)]
struct Came {
    by: String,
    /// The thread that stated it.
    thread: u32,
    /// The class that it had before, or that what it was made of had, or that an ended handle of that number had; or 0.
    otherwise: Number,
}

impl Classed {
    /// What a place shows, whether a class is fixed for it or not; the letter is that of the place.
    pub fn place(
        &self,
        tables: &Tables,
        event: &Event,
        letter: &str,
        index: usize,
        value: Handle,
    ) -> Vec<String> {
        let own = thread(event);
        let (fixed, letters) = match *event {
            Event::C { function, .. } => {
                let facts = known(function);
                (facts.classes[index], facts.letters().0)
            }
            _ => (None, String::new()),
        };
        let alive = tables.references.stated_class(own, value);
        let stated = alive.filter(|_| value % 4 != 0);
        let place = format!("place {} of {letters}", index + 1);
        match (fixed, stated) {
            (Some(fixed), Some(stated)) => self.alive(tables, own, value, stated, fixed, &place),
            (Some(fixed), None) => vec![self.not_alive(tables, own, value, fixed)],
            (None, Some(stated)) if stated != 0 && "rolgwX".contains(letter) => {
                let root = root(tables, stated);
                vec![format!("no class: {letter}, stated below {root}")]
            }
            _ => Vec::new(),
        }
    }

    fn alive(
        &self,
        tables: &Tables,
        own: u32,
        value: Handle,
        stated: Number,
        fixed: Class,
        place: &str,
    ) -> Vec<String> {
        let standing = Standing::of(&tables.classes, stated, fixed);
        let told = match standing {
            Standing::Below(supers) => format!("below by {}", some(supers)),
            Standing::Under(class, supers) => format!("below {class} by {}", some(supers)),
            _ => standing.name().to_string(),
        };
        let right = standing.is_right();
        let came = self.came(own, value);
        let otherwise = Standing::of(&tables.classes, came.otherwise, fixed).is_right();
        let on_another = stated != 0 && came.thread != own;
        vec![
            format!("class {fixed}: {told}"),
            format!("class: {place}, {}", standing.name()),
            format!(
                "class: by {}, right {right}, otherwise {otherwise}",
                came.by
            ),
            format!(
                "class: {}, stated on another thread {on_another}, right {right}",
                kind(value)
            ),
        ]
    }

    /// A value that is not alive, where the class that it had, or has in another thread, may have been right.
    fn not_alive(&self, tables: &Tables, own: u32, value: Handle, fixed: Class) -> String {
        let others = |row: &[Number; 5]| row[HANDLE] == value && row[THREAD] != Number::from(own);
        let others = tables.references.rows.find(others).map(|row| row[CLASS]);
        let (whose, class) = match others {
            Some(class) => ("another's", class),
            None => ("ended or none", self.last_class(own, value)),
        };
        let right = Standing::of(&tables.classes, class, fixed).is_right();
        format!("class: {} not alive, {whose}, right {right}", kind(value))
    }

    /// What an accepted K or O shows.
    pub fn class_event(&self, tables: &Tables, event: &Event) -> Vec<String> {
        let is_open = |thread| tables.book.items(thread) > 0;
        match *event {
            Event::K { superclass, .. } => {
                let (root, is_reserved) =
                    (root(tables, superclass.into()), is_reserved(superclass));
                let items = (1..=THREADS).any(is_open);
                vec![
                    format!("K below {root}, directly {is_reserved}"),
                    format!("K, items open {items}"),
                ]
            }
            Event::O { thread, handle, .. } => {
                let came = self.came(thread, handle);
                let kind = kind(handle);
                let on_another = came.thread != 0 && came.thread != thread;
                let is_first = tables.book.env(thread) == 0;
                vec![
                    format!("O of {kind} over {}", came.by),
                    format!("O of {kind}, stated on another thread {on_another}"),
                    format!(
                        "O, thread open {}, without lines {is_first}",
                        is_open(thread)
                    ),
                ]
            }
            _ => Vec::new(),
        }
    }

    /// Adds an event before it acts.
    pub fn add(&mut self, tables: &Tables, event: &Event) {
        match *event {
            Event::N {
                thread,
                count,
                handles,
                ..
            } => {
                for &handle in &handles[..count] {
                    self.make(thread, handle, "N", 0, 0);
                }
            }
            Event::C { thread, places, .. } => {
                let stated = tables.references.stated_class(thread, places[0]);
                let open = self.open.entry(thread).or_default();
                open.push(stated.unwrap_or(0));
            }
            Event::R {
                thread,
                function,
                result,
                ..
            } => {
                let open = self.open.entry(thread).or_default();
                let source = open.pop().unwrap_or(0);
                let result = line::made(result);
                let makes = "LGW".contains(known(function).letters().1) && result != 0;
                match function {
                    _ if !makes => {}
                    GET_OBJECT_CLASS => self.make(thread, result, "31", CLASS_OF_31, 0),
                    POP_LOCAL_FRAME | NEW_LOCAL_REF | NEW_GLOBAL_REF | NEW_WEAK_GLOBAL_REF
                        if source != 0 =>
                    {
                        let by = format!("copy by {function}");
                        self.make(thread, result, &by, 0, source);
                    }
                    _ => self.make(thread, result, "R", 0, 0),
                }
            }
            Event::O {
                thread,
                handle,
                class,
            } => {
                let before = tables.references.stated_class(thread, handle).unwrap_or(0);
                let former = match before {
                    0 => String::new(),
                    _ => {
                        let by = self.came(thread, handle).by;
                        let by = by.split(' ').next().expect("a word");
                        format!(" over {by}")
                    }
                };
                let came = Came {
                    by: format!("{}{former}", letter(event)),
                    thread,
                    otherwise: before,
                };
                let key = key(thread, handle);
                self.handles.insert(key, came);
                self.last.insert(key, class.into());
            }
            Event::X { .. }
            | Event::A { .. }
            | Event::D { .. }
            | Event::K { .. }
            | Event::M { .. }
            | Event::Z => {}
        }
    }

    fn make(&mut self, thread: u32, handle: Handle, by: &str, class: Number, source: Number) {
        let last = self.last_class(thread, handle);
        let (by, otherwise) = match last {
            0 => (by.to_string(), source),
            _ => (format!("{by} again"), last),
        };
        let key = key(thread, handle);
        let came = Came {
            by,
            thread: if class == 0 { 0 } else { thread },
            otherwise,
        };
        self.handles.insert(key, came);
        self.last.insert(key, class);
    }

    fn came(&self, thread: u32, handle: Handle) -> Came {
        let came = self.handles.get(&key(thread, handle));
        came.cloned().unwrap_or_default()
    }

    fn last_class(&self, thread: u32, handle: Handle) -> Number {
        let last = self.last.get(&key(thread, handle));
        last.copied().unwrap_or(0)
    }
}

/// The class that the R of 31 states.
const CLASS_OF_31: Number = crate::class::CLASS as Number;

fn key(thread: u32, handle: Handle) -> Key {
    (references::owner(thread, handle), handle)
}

/// The reserved class that a class is, or is below.
fn root(tables: &Tables, mut class: Number) -> Number {
    const FIRST: Number = FIRST_DECLARED as Number;
    while let (FIRST.., Some(superclass)) = (class, tables.classes.superclass(class)) {
        class = superclass;
    }
    class
}

fn some(supers: usize) -> &'static str {
    match supers {
        2 => "two",
        _ => few(supers),
    }
}
