//! Classes in made traces: those that are declared, handles of which one is stated, and handles for places that have one.

use super::{find_from_anywhere, Maker};
use crate::class::{FIRST_DECLARED, OBJECT, THROWABLE};
use crate::lent::references::{CLASS, HANDLE};
use crate::lent::rows::THREAD;
use crate::limits::{Class, Handle, Number, MOST_CLASSES};
use crate::line::Event;
use crate::standing::Standing;
use crate::twin::twin_of;

/// How many classes there are beyond as many as there are handles of a kind.
const MORE: usize = 6;

impl Maker<'_> {
    /// A K, or more often an O of the thread.
    pub(super) fn class_event(&mut self, thread: u32) -> Event {
        let handle = self.alive_of_any_kind(thread);
        match handle {
            Some(handle) if self.random.percent(75) => Event::O {
                thread,
                handle,
                class: self.known_class(),
            },
            _ => Event::K {
                class: self.class(),
                superclass: self.known_class(),
            },
        }
    }

    /// A K or an O that the classes or the alive handles likely forbid.
    pub(super) fn doubtful_class_event(&mut self, thread: u32) -> Event {
        match self.random.below(8) {
            0 => Event::K {
                class: self.known_class(),
                superclass: self.known_class(),
            },
            1 => Event::K {
                class: self.class(),
                superclass: self.class(),
            },
            2 => {
                let class = self.class();
                Event::K {
                    class,
                    superclass: class,
                }
            }
            3 => Event::O {
                thread,
                handle: self.alive_of_any_kind(thread).unwrap_or(0),
                class: self.class(),
            },
            4 => Event::O {
                thread,
                handle: self.spoilt_value(thread),
                class: self.class(),
            },
            5 => {
                let alive = self.alive_of_any_kind(thread).unwrap_or(0);
                Event::O {
                    thread,
                    handle: twin_of(alive, &mut self.random),
                    class: self.known_class(),
                }
            }
            _ => Event::O {
                thread,
                handle: self.spoilt_value(thread),
                class: self.known_class(),
            },
        }
    }

    /// A handle alive whose class stands in some way to that of a place, each way as often.
    pub(super) fn alive_by_class(&mut self, thread: u32, fixed: Class) -> Option<Handle> {
        let wished = self
            .random
            .pick(&["unstated", "itself", "below", "another"]);
        let tables = self.judge.tables();
        let own = Number::from(thread);
        find_from_anywhere(&mut self.random, &tables.references.rows, |row| {
            (row[THREAD] == 0 || row[THREAD] == own)
                && Standing::of(&tables.classes, row[CLASS], fixed).name() == wished
        })
        .map(|row| row[HANDLE])
    }

    /// Any class that is not reserved, declared or not.
    pub(super) fn class(&mut self) -> Class {
        if self.random.percent(self.profile.at_ends) {
            return self.random.pick(&[FIRST_DECLARED, MOST_CLASSES as Class]);
        }
        FIRST_DECLARED + self.random.below(self.profile.numbers + MORE) as Class
    }

    /// A class that is reserved, or declared if some tries give one.
    pub(super) fn known_class(&mut self) -> Class {
        if self.random.percent(60) {
            for _ in 0..6 {
                let class = self.class();
                if self.judge.tables().classes.is_known(class) {
                    return class;
                }
            }
        }
        self.random.between(OBJECT, THROWABLE)
    }
}
