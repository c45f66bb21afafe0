//! A trace as it is written: each line is judged first, and must be accepted.

use crate::indexed::Indexes;
use crate::judge::Judge;
use crate::limits::MOST_BYTES;
use crate::line::{self, Event};
use std::io::{self, Write};

pub struct Accepted<'a, W: Write> {
    pub judge: Judge<Indexes>,
    output: &'a mut W,
}

impl<W: Write> Accepted<'_, W> {
    pub fn new(judge: Judge<Indexes>, output: &mut W) -> Accepted<'_, W> {
        Accepted { judge, output }
    }

    pub fn put(&mut self, event: Event) -> io::Result<()> {
        let mut line = [0; MOST_BYTES + 1];
        let length = line::write(&event, &mut line).expect("an event in range");
        let line = &line[..length];
        self.judge.step(line).expect("an accepted line");
        self.output.write_all(line)
    }
}
