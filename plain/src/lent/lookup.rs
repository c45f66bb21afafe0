//! What the rules ask of the alive handles, the outstanding buffers and the stated identities, however they are found.

use super::identities::Places;
use super::pins::Pins;
use super::references::References;
use super::slices::Lent;
use super::Tables;
use crate::facts::Family;
use crate::identity::Stated;
use crate::limits::{Class, Handle, Number};

/// The alive handles.
pub trait Handles {
    /// How many rows are used.
    fn used(&self) -> usize;

    fn free(&self) -> usize;

    /// Whether a nonzero handle of kind 1 to 3 is alive; a local, in this thread.
    fn is_alive(&self, thread: u32, handle: Handle) -> bool;

    /// The class stated of such a handle, or 0, if it is alive; that of its lowest row, should there be several.
    fn stated_class(&self, thread: u32, handle: Handle) -> Option<Number>;

    /// States the class of such a handle that is alive, in its lowest row.
    fn state(&mut self, thread: u32, handle: Handle, class: Class);

    /// Ends such a handle if it is alive: its lowest row, should there be several.
    fn end(&mut self, thread: u32, handle: Handle);

    /// Makes a local in a frame of the thread, or a global or weak, by the line of this number; there must be a free row.
    fn make(&mut self, thread: u32, handle: Handle, frame: usize, line: u32);

    /// Ends the locals of the thread's frames from this one up.
    fn end_locals_from(&mut self, thread: u32, first: usize);

    fn locals_alive_in(&self, thread: u32, frame: usize) -> usize;

    fn globals_and_weaks_alive(&self) -> usize;
}

/// The outstanding buffers.
pub trait Buffers {
    /// How many rows are used.
    fn used(&self) -> usize;

    fn free(&self) -> usize;

    /// Whether the buffer is outstanding in its family; a critical one, in this thread.
    fn is_outstanding(&self, thread: u32, family: Family, buffer: Handle) -> bool;

    fn has_critical(&self, thread: u32) -> bool;

    /// Gets a buffer by the line of this number; there must be a free row.
    fn get(&mut self, thread: u32, family: Family, buffer: Handle, line: u32);

    /// Ends the lowest such row, if there is one.
    fn release(&mut self, thread: u32, family: Family, buffer: Handle);
}

/// The stated identities.
pub trait Identities {
    /// What is stated of an identity, if anything.
    fn stated(&self, identity: Handle) -> Option<Stated>;

    /// Whether it can be stated: it is known, or there is a free place for it.
    fn has_room_for(&self, identity: Handle) -> bool;

    /// States an identity, anew if it is known; there must be room for it.
    fn state(&mut self, identity: Handle, stated: Stated);
}

/// A way to find rows and identities.
pub trait Lookup {
    type Handles<'a>: Handles
    where
        Self: 'a;
    type Buffers<'a>: Buffers
    where
        Self: 'a;
    type Identities<'a>: Identities
    where
        Self: 'a;

    /// What is seen in six lent slices.
    fn tables<'a>(
        &'a mut self,
        lent: Lent<'a>,
    ) -> Tables<'a, Self::Handles<'a>, Self::Buffers<'a>, Self::Identities<'a>>;
}

/// All rows are scanned for each lookup and each count, and an identity is looked for from its own place on.
#[derive(Clone, Copy, Debug, PartialEq, Eq)]
pub struct Scan;

impl Lookup for Scan {
    type Handles<'a> = References<'a>;
    type Buffers<'a> = Pins<'a>;
    type Identities<'a> = Places<'a>;

    fn tables<'a>(&'a mut self, lent: Lent<'a>) -> Tables<'a> {
        lent.scanned()
    }
}
