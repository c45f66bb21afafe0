//! All tests of the plain judge, its makers of traces and its programs.

mod acts;
mod attached;
mod called;
mod classes;
mod common;
mod facts;
mod foreign;
mod foreign_attached;
mod foreign_classes;
mod foreign_identities;
mod foreign_maker;
mod identified;
mod identities;
mod indexed;
mod leaks;
mod lent;
mod lines;
mod maker;
mod pieces;
mod programs;
mod shut_out;
mod single;
mod steps;
mod twins;
mod whole_run;
