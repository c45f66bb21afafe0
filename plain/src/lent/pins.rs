//! The outstanding buffers in lent rows. A row of thread 0 belongs to no thread, any other is critical whatever its family.

use super::lookup::Buffers;
use super::rows::{Rows, THREAD};
use crate::facts::Family;
use crate::limits::{Handle, Number, PIN_NUMBERS};

/// The columns of a row between the thread and the making line.
pub const FAMILY: usize = 1;
pub const BUFFER: usize = 2;

/// A row: thread, family, buffer, making line.
pub type Pin = [Number; PIN_NUMBERS];

pub struct Pins<'a> {
    pub rows: Rows<'a, PIN_NUMBERS>,
}

impl Buffers for Pins<'_> {
    fn used(&self) -> usize {
        self.rows.used()
    }

    fn free(&self) -> usize {
        self.rows.free()
    }

    fn is_outstanding(&self, thread: u32, family: Family, buffer: Handle) -> bool {
        self.rows.has(is_buffer(thread, family, buffer))
    }

    fn has_critical(&self, thread: u32) -> bool {
        let thread = Number::from(thread);
        self.rows.has(|row| row[THREAD] == thread)
    }

    fn get(&mut self, thread: u32, family: Family, buffer: Handle, line: u32) {
        self.rows.take(got(thread, family, buffer, line));
    }

    /// A null buffer is a buffer like others here: a foreign row may hold one.
    fn release(&mut self, thread: u32, family: Family, buffer: Handle) {
        self.rows.end_lowest(is_buffer(thread, family, buffer));
    }
}

/// The row of a buffer got by the line of this number.
pub fn got(thread: u32, family: Family, buffer: Handle, line: u32) -> Pin {
    let owner = owner(thread, family);
    [owner, family.0.into(), buffer, Number::from(line)]
}

/// The thread in the row of a buffer of this family: that which got a critical one, or 0.
pub fn owner(thread: u32, family: Family) -> Number {
    if family.is_critical() {
        Number::from(thread)
    } else {
        0
    }
}

fn is_buffer(thread: u32, family: Family, buffer: Handle) -> impl Fn(&Pin) -> bool {
    let (owner, family) = (owner(thread, family), Number::from(family.0));
    move |row| row[BUFFER] == buffer && row[FAMILY] == family && row[THREAD] == owner
}
