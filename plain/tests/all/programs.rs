//! The programs, run as they are.

use crate::common::{strs, trace};
use plain::make::{make, profile};
use plain::report::{report, report_and_leaks};
use plain::room::{Room, LENT};
use plain::walk::walk;
use std::io::{ErrorKind, Read, Write};
use std::process::{Command, Output, Stdio};

const PLAIN: &str = env!("CARGO_BIN_EXE_plain");
const TRACES: &str = env!("CARGO_BIN_EXE_traces");
const COMPARE: &str = env!("CARGO_BIN_EXE_compare");
const MEASURE: &str = env!("CARGO_BIN_EXE_measure");
const FACTS: &str = env!("CARGO_BIN_EXE_facts");

fn run(program: &str, arguments: &[&str]) -> Output {
    Command::new(program)
        .args(arguments)
        .stdin(Stdio::null())
        .output()
        .unwrap()
}

fn judge(arguments: &[&str], input: &[u8]) -> Vec<u8> {
    judged(arguments, input).stdout
}

fn judged(arguments: &[&str], input: &[u8]) -> Output {
    let mut child = Command::new(PLAIN)
        .args(arguments)
        .stdin(Stdio::piped())
        .stdout(Stdio::piped())
        .stderr(Stdio::piped())
        .spawn()
        .unwrap();
    child.stdin.take().unwrap().write_all(input).unwrap();
    child.wait_with_output().unwrap()
}

#[test]
fn the_program_judges_standard_input() {
    let input = trace(&[
        "N 1 100 5",
        "C 1 101 23 5 0 0 0",
        "R 1 23 0 0",
        "X 1 5",
        "Z",
    ]);
    let expected = trace(&["2 1 0 101", "4 11 1 5", "end closed 5 0 2"]);
    assert_eq!(judge(&[], &input), expected);
    assert_eq!(judge(&[], b""), trace(&["end open 0 0 0"]));
}

#[test]
fn the_program_lends_1024_and_256_rows_and_1024_identities_or_others() {
    let input = trace(&["N 1 100 5 9", "Z"]);
    assert_eq!(judge(&[], &input), trace(&["end closed 2 0 0"]));
    let rooms = ["--rooms", "1", "0", "0"];
    assert_eq!(judge(&rooms, &input), trace(&["end refused 0 7 0"]));
    let input = trace(&["M 8 1 2 0 0", "M 4 1 2 0 0"]);
    for (identities, expected) in [("1", "end refused 1 7 0"), ("2", "end open 2 0 0")] {
        let rooms = ["--rooms", "0", "0", identities];
        assert_eq!(judge(&rooms, &input), trace(&[expected]));
    }
    let lines: Vec<String> = (1..=1_025)
        .map(|index| format!("M {} 1 2 0 0", 4 * index))
        .collect();
    let output = run_on(&trace(&strs(&lines)));
    assert_eq!(output, trace(&["end refused 1024 7 0"]));
    for (name, seed) in [("rows", 2), ("pins", 3), ("rows", 4), ("pins", 5)] {
        let made = make(profile(name).unwrap(), seed, 1_200, LENT);
        let (output, expected) = (run_on(&made), report(&made, LENT));
        assert_eq!(output, expected);
    }
}

#[test]
fn the_program_lists_the_leaks_where_it_is_asked_to_and_the_trace_has_z() {
    let open = ["N 1 100 5", "C 1 100 21 5 0 0 0", "R 1 21 6 0"];
    let closed = trace(&[&open[..], &["Z"]].concat());
    let report = ["4 10 0 1", "end closed 4 0 1"];
    assert_eq!(judge(&[], &closed), trace(&report));
    let listed = judged(&["--leaks"], &closed);
    let with_leaks = trace(&[&report[..], &["leak 10 0 6 3"]].concat());
    assert_eq!((listed.stdout, &listed.stderr[..]), (with_leaks, &b""[..]));
    let in_one_row = judged(&["--leaks", "--rooms", "1", "0", "0"], &closed);
    assert_eq!(in_one_row.stdout, trace(&["end refused 2 7 0"]));
    let unlisted = judged(&["--leaks"], &trace(&open));
    assert_eq!(unlisted.stdout, trace(&["end open 3 0 0"]));
    assert!(!unlisted.stderr.is_empty() && unlisted.status.success());
    assert_eq!(run(PLAIN, &["--leak"]).status.code(), Some(2));
}

#[test]
fn the_program_prints_the_same_where_it_finds_rows_by_indexes() {
    let leaks = profile("leaks").unwrap();
    for seed in 0..5 {
        let room = Room {
            references: 40,
            pins: 12,
            identities: 5,
        };
        let made = make(leaks, seed, 150, room);
        let rooms = ["--leaks", "--rooms", "40", "12", "5"];
        let indexed = [&["--indexed"], &rooms[..]].concat();
        assert_eq!(judge(&indexed, &made), judge(&rooms, &made));
    }
    let input = trace(&["N 1 100 5", "Z"]);
    assert_eq!(judge(&["--indexed"], &input), judge(&[], &input));
}

/// What the program prints of an input it may leave unread after a refusal.
fn run_on(input: &[u8]) -> Vec<u8> {
    let mut child = Command::new(PLAIN)
        .stdin(Stdio::piped())
        .stdout(Stdio::piped())
        .spawn()
        .unwrap();
    let written = child.stdin.take().unwrap().write_all(input);
    assert!(written.is_ok() || written.is_err_and(|error| error.kind() == ErrorKind::BrokenPipe));
    child.wait_with_output().unwrap().stdout
}

#[test]
fn the_program_stops_in_a_line_without_end() {
    let mut child = Command::new(PLAIN)
        .stdin(Stdio::piped())
        .stdout(Stdio::piped())
        .spawn()
        .unwrap();
    let mut input = child.stdin.take().unwrap();
    input.write_all(&[b'1'; 300]).unwrap();
    let mut printed = String::new();
    child
        .stdout
        .take()
        .unwrap()
        .read_to_string(&mut printed)
        .unwrap();
    assert_eq!(printed, "end\trefused\t0\t1\t0\n");
    drop(input);
    assert!(child.wait().unwrap().success());
}

#[test]
fn traces_prints_what_the_maker_makes() {
    let arguments = ["--seed", "7", "--profile", "small", "--lines", "15"];
    let rooms = ["--rooms", "3", "2", "1"];
    let printed = run(TRACES, &[&arguments[..], &rooms].concat()).stdout;
    let room = Room {
        references: 3,
        pins: 2,
        identities: 1,
    };
    assert_eq!(printed, make(profile("small").unwrap(), 7, 15, room));
    let printed = run(TRACES, &["--big", "uses", "500"]).stdout;
    assert_eq!(printed.iter().filter(|&&byte| byte == b'\n').count(), 500);
    let printed = run(TRACES, &["--big", "natives", "3"]).stdout;
    assert_eq!(printed, trace(&["N 1 1", "X 1 0", "N 1 1"]));
    for wrong in [
        &["--big", "uses", "0"][..],
        &["--profile", "none"],
        &["--big", "none", "5"],
        &[],
    ] {
        assert_eq!(run(TRACES, wrong).status.code(), Some(2));
    }
}

#[test]
fn traces_prints_several_with_their_reports_and_leaks() {
    let printed = run(TRACES, &["--walk"]).stdout;
    let made = &walk()[0];
    let report = report_and_leaks(&made.trace, LENT);
    assert!(report.ends_with(b"leak\t10\t0\t7\t5\nleak\t8\t1\t8000\t16\n"));
    let head = format!(
        "1024 256 1024 {} {} {}\n",
        made.trace.len(),
        report.len(),
        made.name
    );
    assert!(printed.starts_with(&[head.as_bytes(), &made.trace, &report].concat()));
}

#[test]
fn facts_prints_the_facts_of_each_function() {
    let printed = String::from_utf8(run(FACTS, &[]).stdout).unwrap();
    let lines: Vec<&str> = printed.lines().collect();
    assert_eq!(lines.len(), 229);
    for line in [
        "9\tri-\tL\t-\t-\tc--\tma",
        "11\trr-\t-\t-\t-\tcc-\t-",
        "13\tr--\t-\t-\t-\tt--\t-",
        "19\t---\tS\tnp\t-\t---\t-",
        "32\tor-\t-\t-\t-\t-c-\t-",
        "93\trri\t-\t-\t-\t-c-\tmi",
        "154\trio\t-\t-\t-\tc--\tfsw",
        "223\trb-\t-\tpc\t10\t---\t-",
        "225\trb-\t-\tpc\t11\ts--\t-",
        "229\t---\tL\t-\t-\t---\t-",
    ] {
        assert!(lines.contains(&line), "{line}");
    }
}

#[test]
fn compare_finds_no_difference_from_itself() {
    for (options, compared) in [
        (
            &["--seed", "9", "--count", "34"][..],
            "compared 34 traces, ",
        ),
        (&["--walk"], "compared 3006 traces, "),
        (
            &["--leaks", "--seed", "9", "--count", "34"],
            "compared 34 traces, ",
        ),
        (&["--leaks", "--walk"], "compared 3006 traces, "),
    ] {
        let output = run(COMPARE, &[options, &["--", PLAIN]].concat());
        let printed = String::from_utf8(output.stdout).unwrap();
        assert!(output.status.success(), "{printed}");
        assert!(printed.starts_with(compared), "{printed}");
    }
}

#[cfg(unix)]
#[test]
fn compare_shrinks_what_differs() {
    let blind_to_rule_9 = format!("{PLAIN} | grep -v '\t9\t0\t0$'");
    let output = run(
        COMPARE,
        &["--seconds", "60", "--", "sh", "-c", &blind_to_rule_9],
    );
    let printed = String::from_utf8(output.stdout).unwrap();
    assert_eq!(output.status.code(), Some(1), "{printed}");
    assert!(
        printed.starts_with("a difference: traces --seed "),
        "{printed}"
    );
    let smallest = "the smallest trace found:\n\
        N\t1\t1\n\
        C\t1\t1\t218\t0\t0\t0\t0\n\
        the plain judge's report:\n\
        2\t7\t1\t0\n\
        2\t9\t0\t0\n\
        end\topen\t2\t0\t2\n\
        the other report:\n\
        2\t7\t1\t0\n\
        end\topen\t2\t0\t2\n\
        compared ";
    assert!(printed.contains(smallest), "{printed}");
}

#[cfg(unix)]
#[test]
fn compare_shrinks_leaks_that_differ() {
    let blind_to_weaks = format!("{PLAIN} \"$0\" | grep -Ev '^leak\t10\t0\t[0-9]*[37]\t'");
    let output = run(
        COMPARE,
        &[
            "--leaks",
            "--seconds",
            "60",
            "--",
            "sh",
            "-c",
            &blind_to_weaks,
        ],
    );
    let printed = String::from_utf8(output.stdout).unwrap();
    assert_eq!(output.status.code(), Some(1), "{printed}");
    let smallest = "the smallest trace found:\n\
        N\t1\t1\n\
        C\t1\t1\t226\t0\t0\t0\t0\n\
        R\t1\t226\t3\t0\n\
        Z\n\
        the plain judge's report:\n\
        4\t10\t0\t1\n\
        end\tclosed\t4\t0\t1\n\
        leak\t10\t0\t3\t3\n\
        the other report:\n\
        4\t10\t0\t1\n\
        end\tclosed\t4\t0\t1\n\
        compared ";
    assert!(printed.contains(smallest), "{printed}");
}

#[test]
fn measure_tells_the_time_a_line_takes() {
    let file = concat!(env!("CARGO_TARGET_TMPDIR"), "/measured");
    std::fs::write(file, trace(&["N 1 100", "X 1 0", "Z"])).unwrap();
    let printed = String::from_utf8(run(MEASURE, &[file]).stdout).unwrap();
    assert!(
        printed.starts_with("3 lines, 16 bytes\nreader "),
        "{printed}"
    );
    assert_eq!(printed.matches(" ns/line\n").count(), 3, "{printed}");
    assert!(run(MEASURE, &["--rows", "2048", file]).status.success());
    assert_eq!(run(MEASURE, &["--rows", file]).status.code(), Some(2));
}
