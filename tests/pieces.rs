//! Pieces of a trace, each judged by both judges over the same foreign tables, and what came up in them.

use crate::common::shown;
use crate::{compare_slices, exported, Guarded, Tables};
use plain::coverage::Coverage;
use plain::foreign::{self, LONG};
use plain::lent::piece::{judge_piece, END, FAR, FULL, MORE, MOST_SHOWN, SHORT_FAR};
use plain::limits::{Word, MOST_BYTES};
use plain::random::Random;
use plain::refusal::{Refusal, NOT_ALIVE, NO_LINE};
use plain::shrink::shrink;
use std::collections::BTreeMap;
use std::fmt::{self, Display, Formatter};

/// What came up.
pub struct Seen {
    /// The lines that were judged in long pieces.
    lines: Coverage,
    /// The replies to long pieces, and to shorter ones.
    replies: BTreeMap<(bool, i32), u64>,
    /// How pieces ended, by name.
    ends: BTreeMap<&'static str, u64>,
}

impl Seen {
    pub fn new() -> Seen {
        let replies = (refused(NOT_ALIVE)..=END).chain([SHORT_FAR]);
        let replies = replies.flat_map(|reply| [(true, reply), (false, reply)]);
        Seen {
            lines: Coverage::of_foreign_pieces(),
            replies: replies.map(|reply| (reply, 0)).collect(),
            ends: BTreeMap::new(),
        }
    }

    pub fn is_whole(&self) -> bool {
        let mut counts = self.replies.values().chain(self.ends.values());
        self.lines.is_whole() && counts.all(|&count| count > 0)
    }

    fn add(&mut self, piece: &[u8], call: Call, reply: i32, far: &[Word]) {
        *self.replies.entry((is_long(piece), reply)).or_default() += 1;
        let &[taken, put, _, ..] = far else {
            return;
        };
        let rest = &piece[taken as usize..];
        let has_line = rest.contains(&b'\n');
        let is_torn = !has_line && !rest.is_empty() && rest.len() <= MOST_BYTES;
        let is_no_line = reply == refused(NO_LINE);
        let ends = [
            ("a line torn, more to come", is_torn && reply == MORE),
            ("a line torn at the end", is_torn && is_no_line),
            (
                "too long without LF",
                !has_line && !is_torn && is_no_line && call.ended == 0,
            ),
            ("a long one taken whole", rest.is_empty() && is_long(piece)),
            ("no room for a line", reply == FULL && put == 0),
            ("room taken by findings", reply == FULL && put > 0),
            ("just room for a line", taken > 0 && call.out == MOST_SHOWN),
        ];
        for (name, is_such) in ends {
            *self.ends.entry(name).or_default() += u64::from(is_such);
        }
    }
}

impl Display for Seen {
    fn fmt(&self, out: &mut Formatter) -> fmt::Result {
        for (is_long, name) in [(true, "long"), (false, "short")] {
            let replies = self.replies.iter().filter(|(key, _)| key.0 == is_long);
            let told = replies.map(|((_, reply), count)| format!("with {reply}: {count}"));
            let told = told.collect::<Vec<_>>().join(", ");
            write!(out, "{name} pieces ({told}); ")?;
        }
        let ends = self.ends.iter();
        let told = ends.map(|(name, count)| format!("{name}: {count}"));
        let told = told.collect::<Vec<_>>().join(", ");
        write!(out, "how pieces ended ({told}); ")?;
        write!(out, "lines of long pieces: {}", self.lines)
    }
}

/// What goes with a piece beside the tables: whether the trace ends behind it, how many bytes are lent for the findings, and how many numbers for how far it came.
#[derive(Clone, Copy)]
struct Call {
    ended: u32,
    out: usize,
    far: usize,
}

impl Call {
    fn any(random: &mut Random) -> Call {
        Call {
            ended: random.pick(&[0, 0, 0, 0, 1, 1, 2, 256, 1 << 31, u32::MAX]),
            out: match random.below(20) {
                0 => random.below(MOST_SHOWN),
                1 => MOST_SHOWN - 1,
                2 => MOST_SHOWN,
                3..=6 => MOST_SHOWN + random.below(100),
                _ => MOST_SHOWN + random.below(20_000),
            },
            far: match random.below(20) {
                0 => random.below(FAR),
                1..=4 => FAR + random.below(5),
                _ => FAR,
            },
        }
    }
}

impl Display for Call {
    fn fmt(&self, told: &mut Formatter) -> fmt::Result {
        let Call { ended, out, far } = self;
        write!(
            told,
            "ended {ended}, out of {out} bytes, far of {far} numbers"
        )
    }
}

/// Both judge a made piece over their tables; what first differs, and a smaller piece by which something does.
pub fn compare(
    plain: &mut Tables,
    proved: &mut Tables,
    lines: &mut Vec<Vec<u8>>,
    seen: &mut Seen,
    random: &mut Random,
) -> Result<(), String> {
    let piece = foreign::piece(&mut plain.clone(), lines, random);
    let call = Call::any(random);
    let before = plain.clone();
    let same = judge_both(plain, proved, &piece, call, seen, random);
    same.map_err(|what| format!("{what}\n{call}; {}", shrunk(&before, &piece, call, random)))
}

/// Both judge a piece; the reply, how far it came, the findings and the tables left are held to those of the plain judge, and all that is around them to what was there.
fn judge_both(
    plain: &mut Tables,
    proved: &mut Tables,
    piece: &[u8],
    call: Call,
    seen: &mut Seen,
    random: &mut Random,
) -> Result<(), String> {
    let mut wanted_out = Guarded::new(vec![b'.'; call.out], random);
    let any = (0..call.far).map(|_| random.number()).collect();
    let mut wanted_far = Guarded::new(any, random);
    let (mut out, mut far) = (wanted_out.clone(), wanted_far.clone());
    let step = |line: &[u8]| {
        if is_long(piece) {
            seen.lines.look(&plain.tables(), line);
        }
        let stepped = plain.step(line);
        if is_long(piece) {
            seen.lines.add(&plain.tables(), line, &stepped);
        }
        stepped
    };
    let ended = call.ended != 0;
    let wanted = judge_piece(step, piece, ended, &mut wanted_out, &mut wanted_far);
    seen.add(piece, call, wanted, &wanted_far);
    let wanted_piece = Guarded::new(piece.to_vec(), random);
    let piece = wanted_piece.clone();
    let given = exported::piece(&piece, call.ended, proved.lend(), &mut out, &mut far);
    if given != wanted {
        return Err(format!("the reply is {given}, not {wanted}"));
    }
    far.compare("far", &wanted_far)?;
    out.compare("out", &wanted_out)?;
    piece.compare("piece", &wanted_piece)?;
    compare_slices(proved, plain)
}

/// A smaller piece by which something differs over these tables, and what.
fn shrunk(before: &Tables, piece: &[u8], call: Call, random: &Random) -> String {
    let difference = |piece: &[u8]| {
        let (mut plain, mut proved) = (before.clone(), before.clone());
        let (seen, random) = (&mut Seen::new(), &mut random.clone());
        judge_both(&mut plain, &mut proved, piece, call, seen, random).err()
    };
    // A piece of few lines is long by digits behind them, which are refused.
    let lengthened = |piece: &[u8]| [piece, &[b'1'; LONG]].concat();
    let stays_long = is_long(piece) && difference(&lengthened(piece)).is_some();
    let tried = |piece: &[u8]| match stays_long {
        true => difference(&lengthened(piece)),
        false => difference(piece),
    };
    let piece = shrink(piece, |piece| tried(piece).is_some());
    let mut told = "a smaller piece that differs:".to_string();
    for line in piece.split_inclusive(|&byte| byte == b'\n') {
        told += &format!("\n    {}", shown(line));
    }
    if stays_long {
        told += &format!("\n    {LONG} digits");
    }
    format!("{told}\n{}", tried(&piece).unwrap_or_default())
}

/// The reply where a line is refused with this number.
fn refused(refusal: Refusal) -> i32 {
    -i32::from(refusal)
}

fn is_long(piece: &[u8]) -> bool {
    piece.len() >= LONG
}
