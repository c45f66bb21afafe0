//! The lent thread book: row 0 for the trace and a row for each thread, whatever they hold.

use crate::limits::{Handle, Word, MOST_FRAMES, MOST_ITEMS, MOST_LINES, THREADS};

/// The columns of row 0.
pub const LINES: usize = 0;
pub const CLOSED: usize = 1;
/// The columns of a thread's row; the lowest frame and the lowest open item stand first.
pub const ENV: usize = 2;
pub const PENDING: usize = 3;
pub const MONITORS: usize = 4;
pub const FRAMES: usize = 5;
pub const CAPACITIES: usize = 6;
pub const PUSHED: usize = CAPACITIES + MOST_FRAMES;
pub const ITEMS: usize = PUSHED + MOST_FRAMES;
/// A mark for each open item that is a native or attached, the lowest item's the lowest bit.
pub const NATIVES: usize = ITEMS + 1;
pub const FUNCTIONS: usize = NATIVES + 1;
pub const ASKED: usize = FUNCTIONS + MOST_ITEMS;

/// Numbers to a row, and to a book.
pub const WIDTH: usize = ASKED + MOST_ITEMS;
pub const WHOLE: usize = (1 + THREADS as usize) * WIDTH;

/// What is written as the function of a native, and of an attached item.
pub const OF_NATIVE: Word = 0;
pub const OF_ATTACHED: Word = 1;

/// The top of a thread's open items.
#[derive(Clone, Copy, Debug, PartialEq, Eq)]
pub enum Top {
    Nothing,
    Native,
    Attached,
    /// A call's function, and max(n,0) of its C.
    Call {
        function: u32,
        asked: u32,
    },
}

/// What makes a book unfit.
#[derive(Clone, Copy, Debug, PartialEq, Eq)]
pub enum Fault {
    /// The book is short.
    Short,
    /// Over 1,000,000 lines.
    Lines,
    /// Over 64 open items.
    Items,
    /// Over 64 frames.
    Frames,
    /// More natives than frames, attached items being counted as natives.
    Natives,
    /// Open items in a thread without a frame.
    ItemsWithoutFrame,
    /// Over 1,000,000 monitors.
    Monitors,
}

pub struct Book<'a>(&'a mut [Word]);

impl<'a> Book<'a> {
    pub fn new(book: &'a mut [Word]) -> Book<'a> {
        Book(book)
    }

    /// Refusal 8 for its sake. All that is asked below is asked of a book that is fit.
    pub fn is_unfit(&self) -> bool {
        !self.faults().is_empty()
    }

    /// All that makes the book unfit; row 0 has none but its lines.
    pub fn faults(&self) -> Vec<Fault> {
        if self.0.len() < WHOLE {
            return vec![Fault::Short];
        }
        let mut faults = Vec::new();
        if self.lines() > MOST_LINES.into() {
            faults.push(Fault::Lines);
        }
        for thread in 1..=THREADS {
            let items = self.number(thread, ITEMS);
            let frames = self.number(thread, FRAMES);
            if items > MOST_ITEMS as Word {
                faults.push(Fault::Items);
            }
            if frames > MOST_FRAMES as Word {
                faults.push(Fault::Frames);
            }
            if self.natives(thread) > frames {
                faults.push(Fault::Natives);
            }
            if items > 0 && frames == 0 {
                faults.push(Fault::ItemsWithoutFrame);
            }
            if self.monitors(thread) > MOST_LINES.into() {
                faults.push(Fault::Monitors);
            }
        }
        faults
    }

    // ---- the trace

    pub fn lines(&self) -> Word {
        self.number(0, LINES)
    }

    pub fn count_line(&mut self) {
        self.put(0, LINES, self.lines() + 1);
    }

    /// Any number but 0 says that Z has come.
    pub fn is_closed(&self) -> bool {
        self.number(0, CLOSED) != 0
    }

    pub fn close(&mut self) {
        self.put(0, CLOSED, 1);
    }

    // ---- a thread

    /// All 64 bits of it; 0 before the first N or A.
    pub fn env(&self, thread: u32) -> Word {
        self.number(thread, ENV)
    }

    pub fn set_env(&mut self, thread: u32, env: Handle) {
        self.put(thread, ENV, env);
    }

    /// Only the number 1 says that an exception is pending.
    pub fn is_pending(&self, thread: u32) -> bool {
        self.number(thread, PENDING) == 1
    }

    pub fn set_pending(&mut self, thread: u32, pending: u32) {
        self.put(thread, PENDING, pending.into());
    }

    pub fn monitors(&self, thread: u32) -> Word {
        self.number(thread, MONITORS)
    }

    pub fn add_monitor(&mut self, thread: u32) {
        self.put(thread, MONITORS, self.monitors(thread) + 1);
    }

    /// None is left.
    pub fn clear_monitors(&mut self, thread: u32) {
        self.put(thread, MONITORS, 0);
    }

    pub fn take_monitor(&mut self, thread: u32) {
        self.put(thread, MONITORS, self.monitors(thread).saturating_sub(1));
    }

    // ---- its frames, numbered from 1

    /// How many frames, which is also the number of the top one.
    pub fn frames(&self, thread: u32) -> usize {
        self.number(thread, FRAMES) as usize
    }

    pub fn set_frames(&mut self, thread: u32, frames: usize) {
        self.put(thread, FRAMES, frames as Word);
    }

    /// Any number but 0 says that the frame was pushed.
    pub fn is_pushed(&self, thread: u32, frame: usize) -> bool {
        self.number(thread, PUSHED + frame - 1) != 0
    }

    /// A thread without frames has no pushed one on top.
    pub fn is_top_pushed(&self, thread: u32) -> bool {
        let top = self.frames(thread);
        top > 0 && self.is_pushed(thread, top)
    }

    /// The number of the top native's frame: the highest that was not pushed, or the lowest where all were.
    pub fn native_frame(&self, thread: u32) -> usize {
        let frames = (1..=self.frames(thread)).rev();
        let mut own = frames.filter(|&frame| !self.is_pushed(thread, frame));
        own.next().unwrap_or(1)
    }

    /// All 64 bits of it.
    pub fn capacity(&self, thread: u32, frame: usize) -> Word {
        self.number(thread, CAPACITIES + frame - 1)
    }

    pub fn set_capacity(&mut self, thread: u32, frame: usize, capacity: Word) {
        self.put(thread, CAPACITIES + frame - 1, capacity);
    }

    pub fn push_frame(&mut self, thread: u32, capacity: u32, pushed: bool) {
        let frames = self.frames(thread);
        self.put(thread, CAPACITIES + frames, capacity.into());
        self.put(thread, PUSHED + frames, pushed.into());
        self.set_frames(thread, frames + 1);
    }

    // ---- its open items

    pub fn items(&self, thread: u32) -> usize {
        self.number(thread, ITEMS) as usize
    }

    pub fn top(&self, thread: u32) -> Top {
        match self.items(thread) {
            0 => Top::Nothing,
            items => self.item(thread, items - 1),
        }
    }

    /// What an item is; the lowest has index 0.
    ///
    /// A marked one is attached where all 64 bits of its function say so, and a native whatever else they say. Of a call's function, and
    /// of what was asked, the lowest 32 bits count.
    pub fn item(&self, thread: u32, index: usize) -> Top {
        let function = self.function(thread, index);
        match (self.is_marked(thread, index), function) {
            (true, OF_ATTACHED) => Top::Attached,
            (true, _) => Top::Native,
            (false, _) => Top::Call {
                function: function as u32,
                asked: self.number(thread, ASKED + index) as u32,
            },
        }
    }

    /// The function of an item, all 64 bits of it.
    pub fn function(&self, thread: u32, index: usize) -> Word {
        self.number(thread, FUNCTIONS + index)
    }

    fn is_marked(&self, thread: u32, index: usize) -> bool {
        self.number(thread, NATIVES) >> index & 1 == 1
    }

    /// The natives and attached items among the open items, of which there are no more than a row has room for.
    fn natives(&self, thread: u32) -> Word {
        let items = self.number(thread, ITEMS).min(MOST_ITEMS as Word) as usize;
        let natives = (0..items).filter(|&index| self.is_marked(thread, index));
        natives.count() as Word
    }

    pub fn push_native(&mut self, thread: u32) {
        self.push_marked(thread, OF_NATIVE);
    }

    pub fn push_attached(&mut self, thread: u32) {
        self.push_marked(thread, OF_ATTACHED);
    }

    fn push_marked(&mut self, thread: u32, function: Word) {
        let mark = 1 << self.items(thread);
        self.put(thread, NATIVES, self.number(thread, NATIVES) | mark);
        self.push_item(thread, function, 0);
    }

    pub fn push_call(&mut self, thread: u32, function: u32, asked: u32) {
        let mark = 1 << self.items(thread);
        self.put(thread, NATIVES, self.number(thread, NATIVES) & !mark);
        self.push_item(thread, function.into(), asked.into());
    }

    /// The top item ends; its mark and its two numbers stay.
    pub fn pop_item(&mut self, thread: u32) {
        self.put(thread, ITEMS, self.number(thread, ITEMS) - 1);
    }

    fn push_item(&mut self, thread: u32, function: Word, asked: Word) {
        let items = self.items(thread);
        self.put(thread, FUNCTIONS + items, function);
        self.put(thread, ASKED + items, asked);
        self.put(thread, ITEMS, items as Word + 1);
    }

    // ---- numbers

    fn number(&self, row: u32, column: usize) -> Word {
        self.0[row as usize * WIDTH + column]
    }

    fn put(&mut self, row: u32, column: usize, number: Word) {
        self.0[row as usize * WIDTH + column] = number;
    }
}
