//! The judgement of a whole input, the report it prints, and the lines of its leaks.

use crate::judge::Judge;
use crate::lent::leaks::Leak;
use crate::lent::lookup::Lookup;
use crate::limits::MOST_BYTES;
use crate::refusal::Refusal;
use crate::room::Room;
use std::io::{self, BufWriter, ErrorKind, Read, Write};

const BUFFER_BYTES: usize = 1 << 16;

const NEVER: &str = "memory neither fails to read nor to write";

/// The report on an input held in memory.
pub fn report(input: &[u8], room: Room) -> Vec<u8> {
    judged(input, room).0
}

/// The same, and a line for each leak behind it where the trace is closed.
pub fn report_and_leaks(input: &[u8], room: Room) -> Vec<u8> {
    let (mut output, mut judge) = judged(input, room);
    if let Ok(leaks) = judge.leaks() {
        write_leaks(&leaks, &mut output).expect(NEVER);
    }
    output
}

fn judged(mut input: &[u8], room: Room) -> (Vec<u8>, Judge) {
    let mut output = Vec::new();
    let judge = Judge::new(room);
    let judge = judge_input(judge, &mut input, &mut output).expect(NEVER);
    (output, judge)
}

/// Writes a line for each leak.
pub fn write_leaks(leaks: &[Leak], output: &mut impl Write) -> io::Result<()> {
    let mut output = BufWriter::with_capacity(BUFFER_BYTES, output);
    for leak in leaks {
        let (rule, thread, value, line) = (leak.rule, leak.thread, leak.value, leak.line);
        writeln!(output, "leak\t{rule}\t{thread}\t{value}\t{line}")?;
    }
    output.flush()
}

/// Judges an input as it comes by a judge from a start, writes its report and answers the judge as the accepted lines have left it.
///
/// A line is cut off after each LF; a rest without one is a line too. The first refusal ends the judgement.
pub fn judge_input<L: Lookup>(
    judge: Judge<L>,
    input: &mut impl Read,
    output: &mut impl Write,
) -> io::Result<Judge<L>> {
    let mut run = Run {
        judge,
        refusal: 0,
        printed: 0,
        output: BufWriter::with_capacity(BUFFER_BYTES, output),
    };
    let mut buffer = vec![0; BUFFER_BYTES];
    let mut filled = 0;
    loop {
        let read = match input.read(&mut buffer[filled..]) {
            Err(error) if error.kind() == ErrorKind::Interrupted => continue,
            read => read?,
        };
        filled += read;
        let mut rest = &buffer[..filled];
        while let Some(lf) = rest.iter().position(|&byte| byte == b'\n') {
            let (line, after) = rest.split_at(lf + 1);
            run.line(line)?;
            if run.refusal != 0 {
                return run.end();
            }
            rest = after;
        }
        let at_end = read == 0;
        if at_end && !rest.is_empty() || rest.len() > MOST_BYTES {
            run.line(rest)?;
        }
        if at_end || run.refusal != 0 {
            return run.end();
        }
        let start = filled - rest.len();
        buffer.copy_within(start..filled, 0);
        filled -= start;
    }
}

struct Run<L, W: Write> {
    judge: Judge<L>,
    /// 0 as long as no line is refused.
    refusal: Refusal,
    printed: u64,
    output: BufWriter<W>,
}

impl<L: Lookup, W: Write> Run<L, W> {
    fn line(&mut self, line: &[u8]) -> io::Result<()> {
        match self.judge.step(line) {
            Ok(findings) => {
                for found in findings.iter() {
                    writeln!(self.output, "{found}")?;
                }
                self.printed += findings.len() as u64;
            }
            Err(refusal) => self.refusal = refusal,
        }
        Ok(())
    }

    fn end(mut self) -> io::Result<Judge<L>> {
        let book = self.judge.tables().book;
        let state = if self.refusal != 0 {
            "refused"
        } else if book.is_closed() {
            "closed"
        } else {
            "open"
        };
        let (lines, refusal, printed) = (book.lines(), self.refusal, self.printed);
        writeln!(self.output, "end\t{state}\t{lines}\t{refusal}\t{printed}")?;
        self.output.flush()?;
        Ok(self.judge)
    }
}
