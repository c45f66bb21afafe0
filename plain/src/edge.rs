//! Single lines at the edges of ranges: one field at an end of its range, just past it, or no number at all.

use crate::damage::{MALFORMED, NUMBERS};
use crate::facts::*;
use crate::form::{with_fields, Kind, CAPACITY, ENV, HANDLE, IDENTITY, RESULT};
use crate::limits::{Field, Handle, MOST_HANDLES, THREADS};
use crate::random::Random;
use crate::twin::HIGH;

/// A line with one field at an edge, the others good.
pub fn edge_line(random: &mut Random) -> Vec<u8> {
    let thread = random.between(1, THREADS).into();
    let env = random.between(1, 2_000).into();
    let form = random.pick(&with_fields());
    let fields = match form.letter {
        b'N' => {
            let handles = 0..random.below(MOST_HANDLES + 1) as Field;
            let handles = handles.map(|index| 4 * index + 1);
            [thread, env].into_iter().chain(handles).collect()
        }
        b'X' => vec![thread, 0],
        b'A' => vec![thread, env],
        b'D' => vec![thread],
        b'C' => call_fields(thread, env, random),
        b'K' => vec![random.between(5, 20).into(), random.between(1, 20).into()],
        b'O' => {
            let handle = random.between(0, 20).into();
            vec![thread, handle, random.between(1, 20).into()]
        }
        b'M' => {
            let [sort, class, is_static, is_final] = [(1, 2), (1, 20), (0, 1), (0, 1)]
                .map(|(least, greatest)| random.between(least, greatest).into());
            let identity = Field::from(4 * random.between(1, 5));
            vec![identity, sort, class, is_static, is_final]
        }
        _ => answer_fields(thread, random),
    };
    let mut kinds: Vec<Kind> = form.kinds().collect();
    for kind in &mut kinds {
        if *kind == RESULT {
            *kind = random.pick(&[HANDLE, CAPACITY]);
        }
    }
    let last = fields.len() - 1;
    let at = if random.percent(35) {
        last
    } else {
        random.below(last + 1)
    };
    let mut line = form.name().to_string();
    for (index, (good, kind)) in fields.into_iter().zip(kinds).enumerate() {
        line.push('\t');
        if index != at {
            line += &good.to_string();
        } else if random.percent(75) {
            line += &random.pick(&edges(kind)).to_string();
        } else if random.percent(60) {
            line += random.pick(&MALFORMED);
        } else {
            line += random.pick(&NUMBERS);
        }
    }
    line.push('\n');
    line.into_bytes()
}

/// The numbers at the ends of a range and just past them, such as would be in it if they were cut to 32 or 64 bits, and some whose kind or sign is another.
fn edges(kind: Kind) -> Vec<Field> {
    const BITS: [u32; 2] = [u32::BITS, Handle::BITS];
    let Kind(least, greatest) = kind;
    let mut edges = vec![-1, 0, least - 1, least, greatest, greatest + 1];
    edges.extend(BITS.map(|bits| least + (1 << bits)));
    edges.extend(BITS.map(|bits| greatest - (1 << bits)));
    match kind {
        HANDLE => {
            let middle = Field::from(HIGH);
            let all = (1..=4).chain(middle - 4..middle + 4);
            edges.extend(all.chain(greatest - 3..greatest));
        }
        ENV => edges.extend(Field::from(HIGH) - 1..=Field::from(HIGH) + 1),
        IDENTITY => {
            let middle = Field::from(HIGH);
            edges.extend((1..=8).chain(middle - 4..middle + 4));
        }
        CAPACITY => edges.push(1),
        _ => {}
    }
    edges.sort_unstable();
    edges.dedup();
    edges
}

/// Good fields of a C.
fn call_fields(thread: Field, env: Field, random: &mut Random) -> Vec<Field> {
    let function = if random.percent(30) {
        random.pick(&[PUSH_LOCAL_FRAME, ENSURE_LOCAL_CAPACITY])
    } else {
        random.between(FIRST_FUNCTION, LAST_FUNCTION)
    };
    let [a, b, c] = known(function).places.map(|kind| match kind {
        PlaceKind::Unused => 0,
        _ => random.between(0, 20).into(),
    });
    vec![thread, env, function.into(), a, b, c, 0]
}

/// Good fields of an R, results of each kind as often.
fn answer_fields(thread: Field, random: &mut Random) -> Vec<Field> {
    let kinds: [fn(ResultKind) -> bool; 7] = [
        |kind| kind == ResultKind::Nothing,
        |kind| kind == ResultKind::Local,
        |kind| kind == ResultKind::Global,
        |kind| kind == ResultKind::Weak,
        |kind| kind == ResultKind::Identity,
        |kind| kind == ResultKind::Status,
        |kind| matches!(kind, ResultKind::Buffer(_)),
    ];
    let is_wished = random.pick(&kinds);
    let wished: Vec<u32> = (FIRST_FUNCTION..=LAST_FUNCTION)
        .filter(|&function| is_wished(known(function).result))
        .collect();
    vec![thread, random.pick(&wished).into(), 0, 1]
}
