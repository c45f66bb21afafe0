//! What comes up of attached threads: how they attach themselves, what they hold when they detach themselves, and which items of foreign books are attached.

use crate::facts::*;
use crate::lent::book::{Book, Top, OF_ATTACHED, OF_NATIVE};
use crate::lent::lookup::{Buffers, Handles};
use crate::lent::references::FRAME;
use crate::lent::rows::THREAD;
use crate::lent::Tables;
use crate::limits::*;
use crate::line::{self, Event};
use crate::twin::{are_twins, HIGH};

/// What accepted lines show.
pub const SHOWN: [&str; 29] = [
    "A, without an env",
    "A, with its env",
    "A, an exception pending",
    "A, with monitors",
    "A, with a critical buffer",
    "C, with another env",
    "C of 20 over it",
    "C of 20 over a frame pushed over it",
    "N in its call",
    "X in its call",
    "Z",
    "D, without locals",
    "D, with locals",
    "D, with locals of several frames",
    "D, with one frame",
    "D, with pushed frames",
    "D, with one monitor",
    "D, with two monitors",
    "D, with more monitors",
    "D, breaks nothing",
    "D, breaks 3 alone",
    "D, breaks 9 alone",
    "D, breaks 3 and 9",
    "D, an exception pending",
    "D, beside another's local",
    "D, beside a global or weak",
    "D, beside another's critical buffer",
    "D, beside another's monitors",
    "D, beside another attached",
];

/// What they show in whole traces alone: the sixteenth local and the one after it.
pub const IN_TRACES: [&str; 2] = ["R fills its frame", "R makes one over"];

/// What they show over foreign tables alone.
pub const FOREIGN: [&str; 15] = [
    "A, over frames",
    "A, as frame 64",
    "C, as item 64",
    "D, item 1",
    "D, an item between",
    "D, item 64",
    "D, over a native",
    "D, over a call",
    "D, over another attached",
    "D, with 64 frames",
    "D, with a local of frame 0",
    "D, with a local above its frames",
    "D, beside a row of its thread's twin",
    "D, with 1,000,000 monitors",
    "D, an unmarked row of its thread",
];

/// The letters of lines that depend on whether a marked item is attached; of these C alone is accepted where it is and where it is not.
pub const LETTERS: [&str; 3] = ["C", "X", "D"];
/// The functions that such an item is tried with.
pub const FUNCTIONS: [Word; 7] = [
    OF_NATIVE,
    OF_ATTACHED,
    2,
    4,
    HIGH,
    HIGH + OF_ATTACHED,
    Word::MAX,
];

/// What an event shows that is accepted over these tables.
pub fn of_accepted(tables: &Tables, event: &Event) -> Vec<&'static str> {
    let book = &tables.book;
    let is_within = |thread| book.items(thread) > 1 && book.item(thread, 0) == Top::Attached;
    let mut shown = Vec::new();
    let mut add = |what, is_shown| {
        if is_shown {
            shown.push(what);
        }
    };
    match *event {
        Event::A { thread, .. } => {
            let (frames, is_new) = (book.frames(thread), book.env(thread) == 0);
            add("A, without an env", is_new);
            add("A, with its env", !is_new);
            add("A, an exception pending", book.is_pending(thread));
            add("A, with monitors", book.monitors(thread) > 0);
            let is_critical = tables.pins.has_critical(thread);
            add("A, with a critical buffer", is_critical);
            add("A, over frames", frames > 0);
            add("A, as frame 64", frames + 1 == MOST_FRAMES);
        }
        Event::C {
            thread,
            env,
            function,
            ..
        } if book.top(thread) == Top::Attached => {
            let pops = function == POP_LOCAL_FRAME;
            let is_pushed = book.is_top_pushed(thread);
            add("C, with another env", book.env(thread) != env);
            add("C of 20 over it", pops && !is_pushed);
            add("C of 20 over a frame pushed over it", pops && is_pushed);
            add("C, as item 64", book.items(thread) + 1 == MOST_ITEMS);
        }
        Event::R {
            thread,
            function,
            result,
            ..
        } if is_within(thread) && book.frames(thread) == 1 => {
            let makes = known(function).result == ResultKind::Local && line::made(result) != 0;
            let frame = book.frames(thread);
            let alive = tables.references.locals_alive_in(thread, frame) as Word;
            let capacity = book.capacity(thread, frame);
            add("R fills its frame", makes && alive + 1 == capacity);
            add("R makes one over", makes && alive == capacity);
        }
        Event::N { thread, .. } => add("N in its call", is_within(thread)),
        Event::X { thread, .. } => add("X in its call", is_within(thread)),
        Event::D { thread } => return of_detached(tables, thread),
        Event::Z => add("Z", (1..=THREADS).any(|thread| is_attached(book, thread))),
        _ => {}
    }
    shown
}

fn of_detached(tables: &Tables, thread: u32) -> Vec<&'static str> {
    let (book, own) = (&tables.book, Number::from(thread));
    let (references, pins) = (&tables.references.rows, &tables.pins.rows);
    let others = || (1..=THREADS).filter(|&other| other != thread);
    let (frames, items) = (book.frames(thread), book.items(thread));
    let monitors = book.monitors(thread);
    let is_critical = tables.pins.has_critical(thread);
    let of_frame = |is_such: &dyn Fn(usize) -> bool| {
        references.has(|row| row[THREAD] == own && is_such(row[FRAME] as usize))
    };
    let (low, high) = (of_frame(&|frame| frame <= 1), of_frame(&|frame| frame > 1));
    let is_unmarked =
        |index: usize| references.all()[index][THREAD] == own && !references.is_used(index);
    let below = (items > 1).then(|| book.item(thread, items - 2));
    let shown = [
        ("D, without locals", !low && !high),
        ("D, with locals", low || high),
        ("D, with locals of several frames", low && high),
        ("D, with one frame", frames == 1),
        ("D, with pushed frames", book.is_top_pushed(thread)),
        ("D, with one monitor", monitors == 1),
        ("D, with two monitors", monitors == 2),
        ("D, with more monitors", monitors > 2),
        ("D, breaks nothing", !is_critical && monitors == 0),
        ("D, breaks 3 alone", is_critical && monitors == 0),
        ("D, breaks 9 alone", !is_critical && monitors > 0),
        ("D, breaks 3 and 9", is_critical && monitors > 0),
        ("D, an exception pending", book.is_pending(thread)),
        (
            "D, beside another's local",
            references.has(|row| ![0, own].contains(&row[THREAD])),
        ),
        (
            "D, beside a global or weak",
            references.has(|row| row[THREAD] == 0),
        ),
        (
            "D, beside another's critical buffer",
            !is_critical && pins.has(|row| row[THREAD] != 0),
        ),
        (
            "D, beside another's monitors",
            monitors == 0 && others().any(|other| book.monitors(other) > 0),
        ),
        (
            "D, beside another attached",
            others().any(|other| is_attached(book, other)),
        ),
        ("D, item 1", items == 1),
        ("D, an item between", (2..MOST_ITEMS).contains(&items)),
        ("D, item 64", items == MOST_ITEMS),
        ("D, over a native", below == Some(Top::Native)),
        ("D, over a call", matches!(below, Some(Top::Call { .. }))),
        ("D, over another attached", below == Some(Top::Attached)),
        ("D, with 64 frames", frames == MOST_FRAMES),
        ("D, with a local of frame 0", of_frame(&|frame| frame == 0)),
        (
            "D, with a local above its frames",
            of_frame(&|frame| frame > frames),
        ),
        (
            "D, beside a row of its thread's twin",
            references.has(|row| are_twins(row[THREAD], own)),
        ),
        ("D, with 1,000,000 monitors", monitors == MOST_LINES.into()),
        (
            "D, an unmarked row of its thread",
            (0..references.room()).any(is_unmarked),
        ),
    ];
    let shown = shown.into_iter().filter(|(_, is_shown)| *is_shown);
    shown.map(|(what, _)| what).collect()
}

fn is_attached(book: &Book, thread: u32) -> bool {
    book.items(thread) > 0 && book.item(thread, 0) == Top::Attached
}

/// The function of the marked top item of a line's thread, where the line depends on whether that is attached, over a book that is fit.
pub fn of_marked(book: &Book, event: &Event) -> Option<Word> {
    let (Event::X { thread, .. } | Event::C { thread, .. } | Event::D { thread }) = *event else {
        return None;
    };
    match book.top(thread) {
        Top::Native | Top::Attached => Some(book.function(thread, book.items(thread) - 1)),
        Top::Nothing | Top::Call { .. } => None,
    }
}

/// Whether some thread of a whole book has more natives than frames only if attached items are counted.
pub fn makes_unfit(book: &Book) -> bool {
    (1..=THREADS).any(|thread| {
        let items = (0..book.items(thread).min(MOST_ITEMS)).map(|index| book.item(thread, index));
        let (mut natives, mut attached) = (0, 0);
        for item in items {
            natives += usize::from(item == Top::Native);
            attached += usize::from(item == Top::Attached);
        }
        natives <= book.frames(thread) && natives + attached > book.frames(thread)
    })
}
