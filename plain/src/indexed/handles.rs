//! The alive handles found by an index: of a handle its row, of a frame its rows and how many there are.

use super::free::Free;
use super::hash::Map;
use crate::lent::lookup::Handles;
use crate::lent::references::{made, owner, CLASS, FRAME, HANDLE};
use crate::lent::rows::{Rows, THREAD};
use crate::limits::{Class, Handle, Number, MOST_FRAMES, REFERENCE_NUMBERS, THREADS};

/// Stands for no row.
const NONE: u32 = u32::MAX;
/// Globals and weaks are those of thread 0 and frame 0.
const FRAMES: usize = 1 + MOST_FRAMES;
const OWNERS: usize = 1 + THREADS as usize;

/// The rows of a frame: the last made, and how many.
#[derive(Clone, Copy, Debug)]
struct Frame {
    last: u32,
    alive: u32,
}

/// The rows of the same frame made before and after a row.
#[derive(Clone, Copy, Debug)]
struct Beside {
    before: u32,
    after: u32,
}

#[derive(Clone, Debug)]
pub struct HandleIndex {
    /// The row of an alive handle by its owner and itself.
    rows: Map<(Number, Handle), u32>,
    free: Free,
    frames: [[Frame; FRAMES]; OWNERS],
    /// No frame of an owner above this one has rows.
    highest: [usize; OWNERS],
    /// As many as there were rows used at once.
    beside: Vec<Beside>,
}

impl Default for HandleIndex {
    fn default() -> HandleIndex {
        let empty = Frame {
            last: NONE,
            alive: 0,
        };
        HandleIndex {
            rows: Map::default(),
            free: Free::default(),
            frames: [[empty; FRAMES]; OWNERS],
            highest: [0; OWNERS],
            beside: Vec::new(),
        }
    }
}

impl HandleIndex {
    /// A row comes last in its frame.
    fn link(&mut self, index: usize, owner: usize, frame: usize) {
        let rows = &mut self.frames[owner][frame];
        let beside = Beside {
            before: rows.last,
            after: NONE,
        };
        // The lowest free row is at most one above those that were ever used.
        match self.beside.get_mut(index) {
            Some(unused) => *unused = beside,
            None => self.beside.push(beside),
        }
        if rows.last != NONE {
            self.beside[rows.last as usize].after = index as u32;
        }
        rows.last = index as u32;
        rows.alive += 1;
        self.highest[owner] = self.highest[owner].max(frame);
    }

    fn unlink(&mut self, index: usize, owner: usize, frame: usize) {
        let Beside { before, after } = self.beside[index];
        if before != NONE {
            self.beside[before as usize].after = after;
        }
        let rows = &mut self.frames[owner][frame];
        match after {
            NONE => rows.last = before,
            _ => self.beside[after as usize].before = before,
        }
        rows.alive -= 1;
    }
}

pub struct IndexedHandles<'a> {
    pub rows: Rows<'a, REFERENCE_NUMBERS>,
    pub index: &'a mut HandleIndex,
}

impl IndexedHandles<'_> {
    fn row(&self, thread: u32, handle: Handle) -> Option<usize> {
        let row = self.index.rows.get(&(owner(thread, handle), handle));
        row.map(|&row| row as usize)
    }

    /// Ends all rows of a frame.
    fn end_frame(&mut self, thread: u32, frame: usize) {
        let rows = &mut self.index.frames[thread as usize][frame];
        let mut row = rows.last;
        *rows = Frame {
            last: NONE,
            alive: 0,
        };
        while row != NONE {
            let index = row as usize;
            let key = (thread.into(), self.rows.all()[index][HANDLE]);
            self.index.rows.remove(&key);
            self.index.free.end(&mut self.rows, index);
            row = self.index.beside[index].before;
        }
    }
}

impl Handles for IndexedHandles<'_> {
    fn used(&self) -> usize {
        self.index.free.used
    }

    fn free(&self) -> usize {
        self.rows.room() - self.used()
    }

    fn is_alive(&self, thread: u32, handle: Handle) -> bool {
        self.row(thread, handle).is_some()
    }

    fn stated_class(&self, thread: u32, handle: Handle) -> Option<Number> {
        let row = self.row(thread, handle);
        row.map(|row| self.rows.all()[row][CLASS])
    }

    fn state(&mut self, thread: u32, handle: Handle, class: Class) {
        if let Some(row) = self.row(thread, handle) {
            self.rows.row_mut(row)[CLASS] = class.into();
        }
    }

    fn end(&mut self, thread: u32, handle: Handle) {
        let key = (owner(thread, handle), handle);
        if let Some(row) = self.index.rows.remove(&key) {
            let index = row as usize;
            let row = &self.rows.all()[index];
            let (owner, frame) = (row[THREAD] as usize, row[FRAME] as usize);
            self.index.unlink(index, owner, frame);
            self.index.free.end(&mut self.rows, index);
        }
    }

    fn make(&mut self, thread: u32, handle: Handle, frame: usize, line: u32) {
        let row = made(thread, handle, frame, line);
        let index = self.index.free.take(&mut self.rows, row);
        self.index.rows.insert((row[THREAD], handle), index as u32);
        self.index
            .link(index, row[THREAD] as usize, row[FRAME] as usize);
    }

    fn end_locals_from(&mut self, thread: u32, first: usize) {
        for frame in first..=self.index.highest[thread as usize] {
            self.end_frame(thread, frame);
        }
        self.index.highest[thread as usize] = first - 1;
    }

    fn locals_alive_in(&self, thread: u32, frame: usize) -> usize {
        self.index.frames[thread as usize][frame].alive as usize
    }

    fn globals_and_weaks_alive(&self) -> usize {
        self.index.frames[0][0].alive as usize
    }
}
