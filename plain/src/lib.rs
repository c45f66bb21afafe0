//! An independent judge of JNI traces in plain Rust, and the trace makers and tools that compare another judge with it.
//!
//! The programs: `plain` judges standard input, `traces` prints made traces, `compare` sets another judge program
//! beside the plain one, `measure` times the reader and both judges, `facts` prints the facts of the functions.

pub mod big;
pub mod called;
pub mod chosen;
pub mod class;
pub mod coverage;
pub mod damage;
pub mod edge;
pub mod facts;
pub mod findings;
pub mod fit;
pub mod foreign;
pub mod form;
pub mod identity;
pub mod indexed;
pub mod judge;
pub mod lent;
pub mod limits;
pub mod line;
pub mod make;
pub mod random;
pub mod refusal;
pub mod report;
pub mod room;
pub mod shrink;
pub mod sights;
pub mod single;
pub mod standing;
pub mod twin;
pub mod walk;
