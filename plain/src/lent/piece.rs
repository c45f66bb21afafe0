//! A piece of a trace, its lines judged one after another: the reply, the findings as bytes and how far it came, as a C caller gets them.

use crate::findings::Findings;
use crate::limits::{Word, MOST_BYTES};
use crate::refusal::Refusal;

/// The replies where no line is refused: more is to be read, there may be no room for the findings of one more line, the trace is at its end.
pub const MORE: i32 = 0;
pub const FULL: i32 = 1;
pub const END: i32 = 2;
/// The reply where `far` is short.
pub const SHORT_FAR: i32 = -101;

/// The bytes that are kept free for the findings of a line.
pub const MOST_SHOWN: usize = 504;
/// Bytes of the piece taken, bytes of findings put, findings put.
pub const FAR: usize = 3;

/// Judges the lines of a piece by this step, up to one that is refused or for which `out` may have no room, which is asked first.
/// The findings stand at the front of `out` as lines of the report, how far it came at the front of `far`. Where that is short nothing is done.
pub fn judge_piece(
    mut step: impl FnMut(&[u8]) -> Result<Findings, Refusal>,
    piece: &[u8],
    ended: bool,
    out: &mut [u8],
    far: &mut [Word],
) -> i32 {
    if far.len() < FAR {
        return SHORT_FAR;
    }
    let (mut taken, mut put, mut found) = (0, 0, 0);
    let reply = loop {
        let Some(line) = next_line(&piece[taken..], ended) else {
            break if ended { END } else { MORE };
        };
        if out.len() - put < MOST_SHOWN {
            break FULL;
        }
        match step(line) {
            Err(refusal) => break -i32::from(refusal),
            Ok(findings) => {
                for finding in findings.iter() {
                    let shown = format!("{finding}\n");
                    out[put..put + shown.len()].copy_from_slice(shown.as_bytes());
                    put += shown.len();
                }
                taken += line.len();
                found += findings.len();
            }
        }
    };
    far[..FAR].copy_from_slice(&[taken, put, found].map(|number| number as Word));
    reply
}

/// The bytes up to the first LF, with it. Without one a rest that is too long for a line is one too, and where the trace has ended any rest.
fn next_line(rest: &[u8], ended: bool) -> Option<&[u8]> {
    match rest.iter().position(|&byte| byte == b'\n') {
        Some(lf) => Some(&rest[..=lf]),
        None if rest.len() > MOST_BYTES || ended && !rest.is_empty() => Some(rest),
        None => None,
    }
}
