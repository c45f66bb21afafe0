//! The program: judges standard input and prints the report, and where it is asked to, the leaks behind it. Rows are scanned, or found by indexes.

use plain::judge::Judge;
use plain::lent::lookup::Lookup;
use plain::report::{judge_input, write_leaks};
use plain::room::{Room, LENT};
use std::io;
use std::process::ExitCode;

const USAGE: &str =
    "usage: plain [--indexed] [--leaks] [--rooms REFERENCE_ROWS PIN_ROWS IDENTITIES] < TRACE";

struct Wish {
    indexed: bool,
    leaks: bool,
    room: Room,
}

fn main() -> ExitCode {
    let arguments: Vec<String> = std::env::args().skip(1).collect();
    let arguments: Vec<&str> = arguments.iter().map(String::as_str).collect();
    let Some(wish) = wish(&arguments) else {
        eprintln!("{USAGE}");
        return ExitCode::from(2);
    };
    let judged = if wish.indexed {
        judge(Judge::indexed(wish.room), wish.leaks)
    } else {
        judge(Judge::new(wish.room), wish.leaks)
    };
    match judged {
        Ok(()) => ExitCode::SUCCESS,
        Err(error) => {
            eprintln!("plain: {error}");
            ExitCode::FAILURE
        }
    }
}

fn wish(arguments: &[&str]) -> Option<Wish> {
    let (indexed, arguments) = match arguments {
        ["--indexed", others @ ..] => (true, others),
        others => (false, others),
    };
    let (leaks, rooms) = match arguments {
        ["--leaks", rooms @ ..] => (true, rooms),
        rooms => (false, rooms),
    };
    let room = match rooms {
        [] => LENT,
        ["--rooms", references, pins, identities] => Room::of(references, pins, identities)?,
        _ => return None,
    };
    Some(Wish {
        indexed,
        leaks,
        room,
    })
}

fn judge<L: Lookup>(judge: Judge<L>, leaks: bool) -> io::Result<()> {
    let (mut input, mut output) = (io::stdin().lock(), io::stdout().lock());
    let mut judge = judge_input(judge, &mut input, &mut output)?;
    if !leaks {
        return Ok(());
    }
    match judge.leaks() {
        Ok(leaks) => write_leaks(&leaks, &mut output)?,
        Err(_) => eprintln!("plain: no leaks are listed, as the trace has no Z"),
    }
    Ok(())
}
