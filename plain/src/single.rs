//! Single lines to hold readers to, and what writers are handed, to hold them to: some chosen, each to be tried once, and others from a seed.

mod any;
pub mod chosen;

pub use any::{handed, line};
