//! What last happened to each handle, buffer and thread, and to the frames of a thread.

use super::{buffer_of, few, letter, lives, thread, used, Buffer, Life, Pin};
use crate::facts::*;
use crate::lent::lookup::Handles;
use crate::lent::pins::BUFFER;
use crate::lent::references::{self, FRAME, HANDLE};
use crate::lent::rows::{LINE, THREAD};
use crate::lent::Tables;
use crate::limits::{Handle, Number, Word};
use crate::line::Event;
use std::collections::BTreeMap;

const EXCEPTION_CLEAR: u32 = 17;

#[derive(Default)]
pub struct Past {
    /// By the thread in its row, and the handle.
    handles: BTreeMap<(Number, Handle), String>,
    buffers: BTreeMap<Buffer, String>,
    /// The rows of those that were released.
    released: Vec<Pin>,
    threads: BTreeMap<u32, Thread>,
}

#[derive(Clone, Default)]
struct Thread {
    /// Whether an N or an A gave it its env, and how its lowest item last ended.
    env_by: Option<char>,
    closed_by: Option<char>,
    pending: String,
    monitors: String,
    /// The lowest first.
    frames: Vec<Frame>,
    /// How many calls there were, and of each open one which it was and its capacity.
    calls: usize,
    open: Vec<(usize, i32)>,
    /// The handles that its last line ended, by the thread in their row.
    ended: Vec<(Number, Handle)>,
}

#[derive(Clone)]
pub struct Frame {
    pub opened: String,
    /// The handles of its N; a pushed frame has none.
    pub arguments: Vec<Handle>,
    pub since: String,
    capacity: Word,
    /// What set its capacity.
    pub capacity_by: String,
}

impl Frame {
    fn new(opened: String, capacity: Word, capacity_by: String) -> Frame {
        Frame {
            opened,
            arguments: Vec::new(),
            since: String::new(),
            capacity,
            capacity_by,
        }
    }

    pub fn is_pushed(&self) -> bool {
        !["native", "attached"].contains(&&self.opened[..])
    }
}

impl Past {
    pub fn of_handle(&self, thread: u32, handle: Handle) -> &str {
        let happened = self
            .handles
            .get(&(references::owner(thread, handle), handle));
        happened.map_or("never made", String::as_str)
    }

    pub fn of_buffer(&self, buffer: Buffer) -> &str {
        let happened = self.buffers.get(&buffer);
        happened.map_or("never got", String::as_str)
    }

    /// The making lines of the equal buffers that were released.
    pub fn released(&self, buffer: Buffer) -> Vec<Number> {
        let equal = |row: &&Pin| buffer_of(row) == buffer;
        self.released
            .iter()
            .filter(equal)
            .map(|row| row[LINE])
            .collect()
    }

    /// What set its pending exception, and its monitors.
    pub fn of_thread(&self, thread: u32) -> (String, String) {
        let happened = self.threads.get(&thread).cloned().unwrap_or_default();
        (happened.pending, happened.monitors)
    }

    /// What gave it its env, and what last left it without open items.
    pub fn entered(&self, thread: u32) -> String {
        let happened = self.threads.get(&thread).cloned().unwrap_or_default();
        let told = |by: Option<char>| by.map_or("nothing".into(), String::from);
        let (env_by, closed_by) = (told(happened.env_by), told(happened.closed_by));
        format!("env by {env_by}, closed by {closed_by}")
    }

    /// What the lowest frame is.
    pub fn lowest(&self, thread: u32) -> &str {
        let lowest = self.frames(thread).first();
        lowest.map_or("nothing", |frame| &frame.opened)
    }

    pub fn frames(&self, thread: u32) -> &[Frame] {
        self.threads
            .get(&thread)
            .map_or(&[], |happened| &happened.frames)
    }

    /// Whether the last line of the thread ended this handle, of its own or of no thread.
    pub fn has_just_ended(&self, thread: u32, handle: Handle) -> bool {
        let key = (references::owner(thread, handle), handle);
        let happened = self.threads.get(&thread);
        happened.is_some_and(|happened| happened.ended.contains(&key))
    }

    /// Whether some handle has ended.
    pub fn has_ended(&self) -> bool {
        self.handles
            .values()
            .any(|happened| happened.starts_with("ended"))
    }

    /// Adds an event, condemned or not, over rows that were these, and which has left these tables.
    pub fn add(
        &mut self,
        event: &Event,
        condemned: bool,
        before: (Vec<Life>, Vec<Pin>),
        after: &Tables,
    ) {
        self.add_to_handles(event, condemned, &before.0, after);
        self.add_to_buffers(event, condemned, &before.1, &used(&after.pins.rows));
        self.add_to_thread(event, after);
    }

    fn add_to_handles(&mut self, event: &Event, condemned: bool, before: &[Life], after: &Tables) {
        let own = thread(event);
        let depth = if own == 0 { 0 } else { after.book.frames(own) };
        let happened = self.threads.entry(own).or_default();
        let act = match *event {
            Event::C { function, .. } => function.to_string(),
            Event::X { .. } | Event::D { .. } => {
                let ended = few(happened.frames.len() - depth);
                format!("{} of {ended} frames", letter(event))
            }
            _ => letter(event).to_string(),
        };
        let after = lives(after);
        for row in &after {
            let might_end = match *event {
                Event::X { .. } | Event::D { .. } => true,
                Event::C {
                    function, places, ..
                } => match function {
                    POP_LOCAL_FRAME => true,
                    DELETE_LOCAL_REF | DELETE_GLOBAL_REF | DELETE_WEAK_GLOBAL_REF => {
                        places[0] == row[HANDLE]
                    }
                    _ => false,
                },
                _ => false,
            };
            let key = (row[THREAD], row[HANDLE]);
            if !before.contains(row) {
                let again = self.handles.contains_key(&key);
                self.handles
                    .insert(key, format!("made by {act}, again {again}"));
            } else if might_end {
                let is_own = row[THREAD] == Number::from(own);
                self.handles
                    .insert(key, format!("not ended by {act}, of its thread {is_own}"));
            }
        }
        happened.ended.clear();
        for row in before.iter().filter(|row| !after.contains(row)) {
            happened.ended.push((row[THREAD], row[HANDLE]));
            let above = row[FRAME] as usize > depth + 1;
            self.handles.insert(
                (row[THREAD], row[HANDLE]),
                format!("ended by {act}, above {above}, condemned {condemned}"),
            );
            if let Some(top) = happened.frames.last_mut() {
                top.since = "one ended".into();
            }
        }
    }

    fn add_to_buffers(&mut self, event: &Event, condemned: bool, before: &[Pin], after: &[Pin]) {
        let own = Number::from(thread(event));
        let released = before.iter().filter(|row| !after.contains(row));
        self.released.extend(released);
        for row in before.iter().chain(after) {
            let buffer = buffer_of(row);
            let is_equal = |other: &&Pin| buffer_of(other) == buffer;
            let count = |rows: &[Pin]| rows.iter().filter(is_equal).count();
            let happened = match (count(before), count(after), event) {
                (was, is, _) if was < is => format!("got, {} before", few(was)),
                (was, is, _) if was > is => {
                    format!("released, {} left, condemned {condemned}", few(is))
                }
                (_, _, Event::X { .. } | Event::D { .. })
                    if row[THREAD] == own || row[THREAD] == 0 =>
                {
                    letter(event).into()
                }
                (_, _, Event::C { places, .. }) if places[1] == row[BUFFER] => {
                    "not released".into()
                }
                _ => continue,
            };
            self.buffers.insert(buffer, happened);
        }
    }

    fn add_to_thread(&mut self, event: &Event, after: &Tables) {
        let own = thread(event);
        let happened = self.threads.entry(own).or_default();
        let depth = if own == 0 { 0 } else { after.book.frames(own) };
        let is_uncovered = happened.frames.len() > depth;
        happened.frames.truncate(depth);
        if own != 0 && after.book.items(own) == 0 {
            happened.closed_by = Some(letter(event));
        }
        match *event {
            Event::N { count, handles, .. } => {
                let capacity = after.book.capacity(own, depth);
                happened.env_by.get_or_insert('N');
                happened.pending = "by N".into();
                happened.frames.push(Frame {
                    arguments: handles[..count].to_vec(),
                    ..Frame::new("native".into(), capacity, "by N".into())
                });
            }
            Event::A { .. } => {
                let capacity = after.book.capacity(own, depth);
                happened.env_by.get_or_insert('A');
                happened.pending = "by A".into();
                if after.book.monitors(own) > 0 {
                    happened.monitors = "held before A".into();
                }
                let frame = Frame::new("attached".into(), capacity, "by A".into());
                happened.frames.push(frame);
            }
            Event::D { .. } => happened.monitors = "by D".into(),
            Event::C { capacity, .. } => {
                happened.calls += 1;
                happened.open.push((happened.calls, capacity));
            }
            Event::R {
                function,
                result,
                pending,
                ..
            } => {
                let clears = if function == EXCEPTION_CLEAR {
                    " of ExceptionClear"
                } else {
                    ""
                };
                happened.pending = format!("by R {pending}{clears}");
                let status = format!("{function} {}", result.signum());
                let (call, asked) = happened.open.pop().expect("an open call");
                let asked = format!(
                    "{function} of {}, last called {}",
                    asked.signum(),
                    call == happened.calls
                );
                match (function, happened.frames.last_mut()) {
                    (MONITOR_ENTER | MONITOR_EXIT, _) => happened.monitors = status,
                    (PUSH_LOCAL_FRAME, _) if result == 0 => {
                        let capacity = after.book.capacity(own, depth);
                        let opened = format!("pushed of {}", few(capacity as usize));
                        let by = format!("by {asked}");
                        happened.frames.push(Frame::new(opened, capacity, by));
                    }
                    (ENSURE_LOCAL_CAPACITY, Some(top)) if result == 0 => {
                        let capacity = after.book.capacity(own, depth);
                        let is_held = after.references.locals_alive_in(own, depth) > 0;
                        top.capacity_by = if capacity > top.capacity {
                            format!("by {asked}, some held {is_held}")
                        } else {
                            format!("kept by {asked}")
                        };
                        top.capacity = capacity;
                        top.since = status;
                    }
                    (PUSH_LOCAL_FRAME | ENSURE_LOCAL_CAPACITY, Some(top)) => top.since = status,
                    _ => {}
                }
            }
            Event::X { .. } | Event::K { .. } | Event::O { .. } | Event::M { .. } | Event::Z => {}
        }
        if let (true, Some(top)) = (is_uncovered, happened.frames.last_mut()) {
            top.since = format!("uncovered by {}", letter(event));
        }
    }
}
