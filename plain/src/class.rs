//! The reserved classes: object, the root, and under it class, string and throwable. Any other class must be declared.

use crate::limits::Class;

pub const OBJECT: Class = 1;
pub const CLASS: Class = 2;
pub const STRING: Class = 3;
pub const THROWABLE: Class = 4;

/// The least number of a class that can be declared.
pub const FIRST_DECLARED: Class = 5;
