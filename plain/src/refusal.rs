//! The numbers given instead of an event. They are tested in the order 8, 1 to 6, 9, 10, 7.

pub type Refusal = u8;

/// No line: too long, without LF, or one too many.
pub const NO_LINE: Refusal = 1;
/// The letter, the count of fields or the form of a number is wrong.
pub const MALFORMED: Refusal = 2;
pub const OUT_OF_RANGE: Refusal = 3;
pub const OUT_OF_STEP: Refusal = 4;
/// The env of an N or an A is not its thread's, or is another thread's.
pub const WRONG_ENV: Refusal = 5;
/// It makes a handle already alive, or names one twice.
pub const ALREADY_ALIVE: Refusal = 6;
pub const NO_ROOM: Refusal = 7;
/// The lent thread book is unfit, or the lent class table short.
pub const UNFIT_TABLES: Refusal = 8;
/// K of a class declared or reserved, or a super, or a class that O or M states, that is neither.
pub const WRONG_CLASS: Refusal = 9;
/// O on a handle not alive.
pub const NOT_ALIVE: Refusal = 10;
