//! The outstanding buffers found by an index: of a buffer its rows, of a thread how many critical ones it has.

use super::free::Free;
use super::hash::Map;
use crate::facts::Family;
use crate::lent::lookup::Buffers;
use crate::lent::pins::{got, owner};
use crate::lent::rows::{Rows, THREAD};
use crate::limits::{Handle, Number, PIN_NUMBERS, THREADS};
use std::cmp::Reverse;
use std::collections::hash_map::Entry;
use std::collections::BinaryHeap;

const OWNERS: usize = 1 + THREADS as usize;

/// Owner, family and buffer.
type Key = (Number, Number, Handle);

/// The rows of equal buffers. A release ends the lowest, so none is ever taken from their midst.
#[derive(Clone, Debug)]
enum Equal {
    One(u32),
    Several(BinaryHeap<Reverse<u32>>),
}

#[derive(Clone, Debug, Default)]
pub struct BufferIndex {
    rows: Map<Key, Equal>,
    free: Free,
    /// How many rows each owner has; those of owner 0 are not critical.
    owned: [usize; OWNERS],
}

pub struct IndexedBuffers<'a> {
    pub rows: Rows<'a, PIN_NUMBERS>,
    pub index: &'a mut BufferIndex,
}

impl Buffers for IndexedBuffers<'_> {
    fn used(&self) -> usize {
        self.index.free.used
    }

    fn free(&self) -> usize {
        self.rows.room() - self.used()
    }

    fn is_outstanding(&self, thread: u32, family: Family, buffer: Handle) -> bool {
        self.index.rows.contains_key(&key(thread, family, buffer))
    }

    fn has_critical(&self, thread: u32) -> bool {
        self.index.owned[thread as usize] > 0
    }

    fn get(&mut self, thread: u32, family: Family, buffer: Handle, line: u32) {
        let row = got(thread, family, buffer, line);
        let index = self.index.free.take(&mut self.rows, row) as u32;
        self.index.owned[row[THREAD] as usize] += 1;
        match self.index.rows.entry(key(thread, family, buffer)) {
            Entry::Vacant(none) => {
                none.insert(Equal::One(index));
            }
            Entry::Occupied(mut equal) => match equal.get_mut() {
                Equal::One(other) => {
                    let rows = [*other, index].map(Reverse);
                    *equal.get_mut() = Equal::Several(rows.into());
                }
                Equal::Several(rows) => rows.push(Reverse(index)),
            },
        }
    }

    fn release(&mut self, thread: u32, family: Family, buffer: Handle) {
        let Entry::Occupied(mut equal) = self.index.rows.entry(key(thread, family, buffer)) else {
            return;
        };
        let lowest = match equal.get_mut() {
            Equal::One(row) => {
                let row = *row;
                equal.remove();
                row
            }
            Equal::Several(rows) => {
                let Reverse(lowest) = rows.pop().expect("a row");
                if let [Reverse(last)] = *rows.as_slice() {
                    *equal.get_mut() = Equal::One(last);
                }
                lowest
            }
        };
        self.index.free.end(&mut self.rows, lowest as usize);
        self.index.owned[owner(thread, family) as usize] -= 1;
    }
}

fn key(thread: u32, family: Family, buffer: Handle) -> Key {
    (owner(thread, family), family.0.into(), buffer)
}
