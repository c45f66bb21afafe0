//! Foreign tables made from a seed, the lines and pieces to judge over them, and the lists to ask of them.

mod classes;
mod contents;
mod crowd;
mod identities;
mod lengths;
mod lines;
mod pieces;

pub use contents::{a_z, make, Foreign};
pub use lengths::of_list;
pub use lines::{is_over, line};
pub use pieces::{piece, LONG};
