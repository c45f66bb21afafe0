//! A piece of a trace judged in one call: where it stops, what it tells, and that nothing else is written.

use crate::common::{line, room, trace, Lent};
use plain::lent::piece::{judge_piece, END, FULL, MORE, SHORT_FAR};
use plain::lent::slices::Slices;
use plain::limits::Word;

/// The reply to a piece with so many bytes for the findings, how far it came and the findings; what is behind both must stay.
#[track_caller]
fn pass(slices: &mut Slices, piece: &[u8], ended: bool, room: usize) -> (i32, [Word; 3], String) {
    let (mut out, mut far) = (vec![b'.'; room], [7; 5]);
    let reply = judge_piece(|line| slices.step(line), piece, ended, &mut out, &mut far);
    let [taken, put, found, rest @ ..] = far;
    assert_eq!(rest, [7; 2]);
    let (shown, behind) = out.split_at(put as usize);
    assert!(behind.iter().all(|&byte| byte == b'.'));
    let shown = String::from_utf8(shown.to_vec()).unwrap();
    (reply, [taken, put, found], shown)
}

/// Lines of which the second has two findings and the last one.
const LINES: [&str; 4] = ["N 1 100", "C 1 101 31 5 0 0 0", "R 1 31 9 0", "X 1 13"];
const SHOWN: &str = "2\t1\t0\t101\n2\t11\t1\t5\n4\t11\t1\t13\n";

#[test]
fn a_piece_is_judged_as_its_lines_are() {
    let piece = trace(&LINES);
    for (ended, wanted) in [(false, MORE), (true, END)] {
        let mut slices = Slices::new(room(8, 8));
        let (reply, far, shown) = pass(&mut slices, &piece, ended, 2_000);
        assert_eq!(reply, wanted);
        assert_eq!(far, [piece.len() as Word, SHOWN.len() as Word, 3]);
        assert_eq!(shown, SHOWN);
        assert_eq!(slices, Slices::after(room(8, 8), &LINES));
    }
}

#[test]
fn a_rest_without_lf_waits_for_more_and_is_refused_at_the_end() {
    let mut piece = line("N 1 100");
    let taken = piece.len() as Word;
    piece.extend(b"X\t1");
    let mut slices = Slices::new(room(8, 8));
    let waits = pass(&mut slices.clone(), &piece, false, 504);
    assert_eq!(waits, (MORE, [taken, 0, 0], String::new()));
    let ends = pass(&mut slices, &piece, true, 504);
    assert_eq!(ends, (-1, [taken, 0, 0], String::new()));
    assert_eq!(slices, Slices::after(room(8, 8), &["N 1 100"]));
}

#[test]
fn more_than_128_bytes_without_lf_are_refused_at_once() {
    for (bytes, wanted) in [(223, MORE), (224, MORE), (225, -1), (5_000, -1)] {
        let piece = vec![b'1'; bytes];
        let (reply, far, _) = pass(&mut Slices::new(room(8, 8)), &piece, false, 504);
        assert_eq!((reply, far), (wanted, [0; 3]), "{bytes}");
    }
}

#[test]
fn an_empty_piece_is_no_line_whatever_the_tables() {
    let mut slices = Slices::new(room(0, 0));
    slices.book.clear();
    for room in [0, 503, 504] {
        assert_eq!(pass(&mut slices, b"", false, room).0, MORE);
        assert_eq!(pass(&mut slices, b"", true, room).0, END);
    }
    assert_eq!(pass(&mut slices, b"1", false, 504).0, MORE);
    assert_eq!(pass(&mut slices, b"1", true, 504).0, -8);
    assert_eq!(pass(&mut slices, b"Z\n", false, 504).0, -8);
}

#[test]
fn it_stops_before_a_line_that_is_refused() {
    let piece = trace(&["N 1 100", "N 1 100", "X 1 0"]);
    let mut slices = Slices::new(room(8, 8));
    let (reply, far, _) = pass(&mut slices, &piece, true, 504);
    assert_eq!((reply, far), (-4, [8, 0, 0]));
    assert_eq!(slices, Slices::after(room(8, 8), &["N 1 100"]));
}

#[test]
fn it_stops_before_a_line_for_whose_findings_504_bytes_are_not_left() {
    let piece = trace(&LINES);
    let behind_two = trace(&LINES[..2]).len() as Word;
    let first = "2\t1\t0\t101\n2\t11\t1\t5\n";
    for (free, wanted) in [
        (0, (FULL, [0; 3])),
        (503, (FULL, [0; 3])),
        (504, (FULL, [behind_two, 19, 2])),
        (504 + 18, (FULL, [behind_two, 19, 2])),
        (504 + 19, (END, [piece.len() as Word, 29, 3])),
    ] {
        let (reply, far, shown) = pass(&mut Slices::new(room(8, 8)), &piece, true, free);
        assert_eq!((reply, far), wanted, "{free}");
        assert!(shown.is_empty() || shown.starts_with(first));
    }
    // Whether the line would be refused is not looked at.
    assert_eq!(
        pass(&mut Slices::new(room(8, 8)), b"\n", false, 503).0,
        FULL
    );
}

#[test]
fn where_far_is_short_nothing_is_touched() {
    for length in 0..3 {
        let (mut out, mut far) = ([b'.'; 600], vec![7; length]);
        let step = |_: &[u8]| panic!("a step");
        let reply = judge_piece(step, b"Z\n", true, &mut out, &mut far);
        assert_eq!(reply, SHORT_FAR);
        assert_eq!((out, far), ([b'.'; 600], vec![7; length]));
    }
}

#[test]
fn where_a_trace_is_cut_makes_no_difference() {
    let trace = trace(&LINES);
    for cut in 0..=trace.len() {
        let mut slices = Slices::new(room(8, 8));
        let (first, far, mut shown) = pass(&mut slices, &trace[..cut], false, 2_000);
        assert_eq!(first, MORE);
        let rest = &trace[far[0] as usize..];
        let (second, _, behind) = pass(&mut slices, rest, true, 2_000);
        shown += &behind;
        assert_eq!((second, &shown[..]), (END, SHOWN), "{cut}");
        assert_eq!(slices, Slices::after(room(8, 8), &LINES));
    }
}
