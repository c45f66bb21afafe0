//! The leak list over the tables: each outstanding buffer, and each global or weak alive, with the line that made it.

use super::pins::BUFFER;
use super::references::HANDLE;
use super::rows::{LINE, THREAD};
use super::Tables;
use crate::limits::Number;
use crate::refusal::{Refusal, NO_ROOM, OUT_OF_STEP, UNFIT_TABLES};

/// Numbers to a record: rule, thread, value, line.
pub const RECORD: usize = 4;

/// A record of the list.
#[derive(Clone, Copy, Debug, PartialEq, Eq)]
pub struct Leak {
    pub rule: u8,
    /// The thread that got a critical buffer, or 0.
    pub thread: Number,
    /// The buffer or the handle.
    pub value: Number,
    pub line: Number,
}

impl Tables<'_> {
    /// The leaks after Z, ordered by making line, then by rule and row. No class is looked at, so the class table may be short.
    pub fn leaks(&self) -> Result<Vec<Leak>, Refusal> {
        if self.book.is_unfit() {
            return Err(UNFIT_TABLES);
        }
        if !self.book.is_closed() {
            return Err(OUT_OF_STEP);
        }
        let buffers = self.pins.rows.all_used().map(|row| Leak {
            rule: 8,
            thread: row[THREAD],
            value: row[BUFFER],
            line: row[LINE],
        });
        let shared = self.references.rows.all_used();
        let shared = shared.filter(|row| row[THREAD] == 0).map(|row| Leak {
            rule: 10,
            thread: 0,
            value: row[HANDLE],
            line: row[LINE],
        });
        let mut leaks: Vec<Leak> = buffers.chain(shared).collect();
        // They come by rule and row, and such as have the same line stay so.
        leaks.sort_by_key(|leak| leak.line);
        Ok(leaks)
    }

    /// Writes the list at the front of a lent slice and answers how many leaks there are; nothing is written where it refuses.
    pub fn list_leaks(&self, list: &mut [Number]) -> Result<usize, Refusal> {
        let leaks = self.leaks()?;
        let (records, _) = list.as_chunks_mut::<RECORD>();
        if records.len() < leaks.len() {
            return Err(NO_ROOM);
        }
        for (record, leak) in records.iter_mut().zip(&leaks) {
            *record = [leak.rule.into(), leak.thread, leak.value, leak.line];
        }
        Ok(leaks.len())
    }
}
