//! The alive handles in lent rows. A row of thread 0 is a global or weak whatever its handle, any other row a local.

use super::lookup::Handles;
use super::rows::{Rows, THREAD};
use crate::facts::LOCAL;
use crate::limits::{Class, Handle, Number, REFERENCE_NUMBERS};

/// The columns of a row between the thread and the making line; a global or weak has thread and frame 0.
pub const HANDLE: usize = 1;
pub const FRAME: usize = 2;
/// The column of the stated class, the last; 0 where none is stated.
pub const CLASS: usize = 4;

/// A row: thread, handle, frame, making line, stated class.
pub type Reference = [Number; REFERENCE_NUMBERS];

pub struct References<'a> {
    pub rows: Rows<'a, REFERENCE_NUMBERS>,
}

impl Handles for References<'_> {
    fn used(&self) -> usize {
        self.rows.used()
    }

    fn free(&self) -> usize {
        self.rows.free()
    }

    fn is_alive(&self, thread: u32, handle: Handle) -> bool {
        self.rows.has(is_handle(thread, handle))
    }

    fn stated_class(&self, thread: u32, handle: Handle) -> Option<Number> {
        let row = self.rows.find(is_handle(thread, handle));
        row.map(|row| row[CLASS])
    }

    fn state(&mut self, thread: u32, handle: Handle, class: Class) {
        if let Some(row) = self.rows.find_mut(is_handle(thread, handle)) {
            row[CLASS] = class.into();
        }
    }

    fn end(&mut self, thread: u32, handle: Handle) {
        self.rows.end_lowest(is_handle(thread, handle));
    }

    fn make(&mut self, thread: u32, handle: Handle, frame: usize, line: u32) {
        self.rows.take(made(thread, handle, frame, line));
    }

    fn end_locals_from(&mut self, thread: u32, first: usize) {
        let (thread, first) = (Number::from(thread), first as Number);
        self.rows
            .end_all(|row| row[THREAD] == thread && row[FRAME] >= first);
    }

    fn locals_alive_in(&self, thread: u32, frame: usize) -> usize {
        let (thread, frame) = (Number::from(thread), frame as Number);
        self.rows
            .count(|row| row[THREAD] == thread && row[FRAME] == frame)
    }

    fn globals_and_weaks_alive(&self) -> usize {
        self.rows.count(|row| row[THREAD] == 0)
    }
}

/// The row of a local made in a frame of the thread, or of a global or weak, by the line of this number; no class is stated of it.
pub fn made(thread: u32, handle: Handle, frame: usize, line: u32) -> Reference {
    let owner = owner(thread, handle);
    let frame = if owner == 0 { 0 } else { frame as Number };
    [owner, handle, frame, Number::from(line), 0]
}

/// The thread in the row of a handle: that of a local, or 0.
pub fn owner(thread: u32, handle: Handle) -> Number {
    if handle % 4 == LOCAL {
        Number::from(thread)
    } else {
        0
    }
}

fn is_handle(thread: u32, handle: Handle) -> impl Fn(&Reference) -> bool {
    let owner = owner(thread, handle);
    move |row| row[HANDLE] == handle && row[THREAD] == owner
}
