//! The limits of lines, tables and traces, and how wide their numbers are.

/// An env, a handle, an identity or a buffer; the greatest is `Handle::MAX`.
pub type Handle = u64;
/// A number of a lent row, of a finding, of a leak or of a line as C is told it: as wide as a handle.
pub type Number = Handle;
/// A number of the thread book, or the marks of as many rows as it has bits.
pub type Word = u64;
/// The number of a class.
pub type Class = u32;
/// A number on a line, wider than the range of every field.
pub type Field = i128;

pub const THREADS: u32 = 16;
/// The most handles an N carries.
pub const MOST_HANDLES: usize = 8;
/// The most bytes of a line before its LF.
pub const MOST_BYTES: usize = 224;
/// The most lines of a trace, and the most monitors of a thread.
pub const MOST_LINES: u32 = 1_000_000;
/// The most open items of a thread.
pub const MOST_ITEMS: usize = 64;
/// The most frames of a thread.
pub const MOST_FRAMES: usize = 64;
/// The room for new locals in the frame of a native or of an attached item; the handles on an N line come on top.
pub const NEW_LOCALS: u32 = 16;

/// The greatest number of a class, and so the supers of a whole class table.
pub const MOST_CLASSES: usize = 4_095;

/// The numbers of a reference row, of a pin row and of an identity.
pub const REFERENCE_NUMBERS: usize = 5;
pub const PIN_NUMBERS: usize = 4;
pub const IDENTITY_NUMBERS: usize = 4;
/// The most rows that count as room.
pub const MOST_ROOM: usize = 65_536;
