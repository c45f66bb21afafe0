//! Damage to traces: bytes, fields and whole lines changed, lost or out of order.

use crate::form::{with_fields, MOST_NUMBERS};
use crate::limits::{Handle, MOST_BYTES, MOST_HANDLES};
use crate::random::Random;

/// Fields that are no numbers.
pub const MALFORMED: [&str; 16] = [
    "", "-", "--1", "-0", "-00", "-01", "+1", "+0", "00", "01", "1 ", " 1", "1a", "0x1", "1.0",
    "1-",
];

/// Numbers at the ends of ranges, just past them, or far beyond, some of which wrap to small ones.
pub const NUMBERS: [&str; 45] = [
    "-1",
    "-2",
    "0",
    "1",
    "2",
    "3",
    "4",
    "5",
    "16",
    "17",
    "232",
    "233",
    "4095",
    "4096",
    "2147483647",
    "2147483648",
    "-2147483648",
    "-2147483649",
    "4294967291",
    "4294967293",
    "4294967295",
    "4294967296",
    "4294967297",
    "4294967315",
    "-4294967295",
    "140187412345673",
    "9223372036854775807",
    "9223372036854775808",
    "-9223372036854775808",
    "-9223372036854775809",
    "9999999999999999999",
    "18446744073709551611",
    "18446744073709551613",
    "18446744073709551615",
    "18446744073709551616",
    "18446744073709551617",
    "-18446744073709551615",
    "-18446744073709551617",
    "99999999999999999999",
    "184467440737095516150",
    "100000000000000000000000000000",
    "340282366920938463463374607431768211455",
    "340282366920938463463374607431768211457",
    "-340282366920938463463374607431768211457",
    "10000000000000000000000000000000000000000000000000000000000000005",
];

const ODD_LINES: [&[u8]; 33] = [
    b"\n",
    b"\r\n",
    b"\t\n",
    b"Z\t\n",
    b"Z\r\n",
    b"Z 1\n",
    b"Z\t1\n",
    b"ZZ\n",
    b"z\n",
    b"Z\n",
    b"N\n",
    b"N\t1\n",
    b"N\t1\t1\n",
    b"N\t17\t01\n",
    b"N\t1\t1\t0\n",
    b"N\t1\t1\t2\n",
    b"N\t1\t1\t1\t5\t9\t13\t17\t21\t25\t29\t33\n",
    b"X\t1\t0\n",
    b"C\t1\t0\t4\t0\t0\t0\t0\n",
    b"R\t1\t4\t0\t0\n",
    b"A\t1\t100\n",
    b"A\t1\n",
    b"A\t1\t100\t5\n",
    b"D\t1\n",
    b"D\t1\t0\n",
    b"M\t8\t1\t2\t0\t0\n",
    b"K\t5\t1\n",
    b"K\t5\n",
    b"K\t1\t5\t1\n",
    b"O\t1\t5\t2\n",
    b"O\t1\t5\n",
    b"\0\n",
    b"\xef\xbb\xbfZ\n",
];

const ODD_BYTES: [u8; 16] = [
    0, b'\t', b'\n', b'\r', b' ', b'+', b'-', b'0', b'1', b'9', b'N', b'Z', b'a', 0x7f, 0x80, 0xff,
];

/// Damages bytes of some lines, puts odd lines among them, lengthens or cuts off the last.
pub fn damage_bytes(lines: &mut Vec<Vec<u8>>, random: &mut Random) {
    for _ in 0..random.between(1, 3) {
        if lines.is_empty() || random.percent(15) {
            let at = random.below(lines.len() + 1);
            lines.insert(at, odd_line(random));
        }
        let at = mostly_late(lines.len(), random);
        if random.percent(30) {
            lengthen(&mut lines[at], random);
        } else {
            change_byte(&mut lines[at], random);
        }
    }
    if random.percent(35) {
        truncate(lines, random);
    }
}

/// Damages fields of some lines, those of each letter as often.
pub fn damage_fields(lines: &mut [Vec<u8>], random: &mut Random) {
    let forms = with_fields();
    for _ in 0..random.between(1, 3) {
        let form = random.pick(&forms);
        let of_form = |index: &usize| lines[*index].first() == Some(&form.letter);
        let indices: Vec<usize> = (0..lines.len()).filter(of_form).collect();
        if !indices.is_empty() {
            let at = indices[mostly_late(indices.len(), random)];
            change_field(&mut lines[at], random);
        }
    }
}

/// Drops, swaps, doubles and moves some lines.
pub fn disorder(lines: &mut Vec<Vec<u8>>, random: &mut Random) {
    for _ in 0..random.between(1, 3) {
        if lines.len() < 2 {
            break;
        }
        let at = mostly_late(lines.len(), random);
        let other = random.below(lines.len());
        match random.below(6) {
            0 => {
                lines.remove(at);
            }
            1 => lines.swap(at, if at == 0 { 1 } else { at - 1 }),
            2 => lines.swap(at, other),
            3 => lines.insert(at, lines[at].clone()),
            4 => lines.insert(at, lines[other].clone()),
            _ => lines.insert(at, b"Z\n".to_vec()),
        }
    }
    if random.percent(15) {
        truncate(lines, random);
    }
}

/// A line that is wrong, or right only by chance.
pub fn odd_line(random: &mut Random) -> Vec<u8> {
    if random.percent(10) {
        let numbers = random.pick(&["\t1", "\t18446744073709551613"]);
        let mut line = b"N\t1".to_vec();
        line.extend(numbers.repeat(1 + random.below(MOST_HANDLES + 1)).bytes());
        lengthen(&mut line, random);
        return line;
    }
    random.pick(&ODD_LINES).to_vec()
}

/// An index among so many, in the last fifth more often than not.
fn mostly_late(count: usize, random: &mut Random) -> usize {
    let span = if random.percent(70) {
        count.div_ceil(5)
    } else {
        count
    };
    count - 1 - random.below(span)
}

fn change_byte(line: &mut Vec<u8>, random: &mut Random) {
    let at = random.below(line.len().max(1));
    let byte = if random.percent(70) {
        random.pick(&ODD_BYTES)
    } else {
        random.number() as u8
    };
    match random.below(3) {
        0 => line.insert(at, byte),
        _ if line.is_empty() => {}
        1 => line[at] = byte,
        _ => {
            line.remove(at);
        }
    }
}

/// Puts an odd field in place of one, or loses, adds or spoils one.
fn change_field(line: &mut Vec<u8>, random: &mut Random) {
    let body = line.strip_suffix(b"\n").unwrap_or(line);
    let mut fields: Vec<Vec<u8>> = body.split(|&byte| byte == b'\t').map(Vec::from).collect();
    let count = fields.len();
    let at = random.below(count);
    let odd = if random.percent(40) {
        random.pick(&MALFORMED).into()
    } else {
        random.pick(&NUMBERS).into()
    };
    match random.below(14) {
        0..=6 => fields[at.max(1).min(count - 1)] = odd,
        12 | 13 => add_digits(&mut fields[at.max(1).min(count - 1)], random),
        7 => {
            fields.remove(at);
        }
        8 => fields.insert(at + 1, odd),
        9 => fields.insert(at, Vec::new()),
        10 => fields.resize(1 + MOST_NUMBERS + random.below(2), b"5".to_vec()),
        _ => {
            let end = random.pick(&[b'\t', b'\r', b' ', 0]);
            fields.last_mut().expect("a field").push(end);
        }
    }
    *line = fields.join(&b'\t');
    line.push(b'\n');
}

/// Adds digits to a field, mostly as many as take it about to the greatest handle or beyond.
pub fn add_digits(field: &mut Vec<u8>, random: &mut Random) {
    let greatest = Handle::MAX.to_string();
    match greatest.as_bytes().strip_prefix(&field[..]) {
        Some(digits @ [before @ .., _]) if random.percent(50) => match random.below(3) {
            0 => field.extend(digits),
            1 => field.extend([before, b"6"].concat()),
            _ => field.extend([digits, b"0"].concat()),
        },
        _ => {
            let length = greatest.len() - 2 + random.below(5);
            let digits = length.saturating_sub(field.len()).max(1);
            field.extend((0..digits).map(|_| random.pick(b"0123456789")));
        }
    }
}

/// Lengthens a line to about the most bytes a line has, or far beyond.
fn lengthen(line: &mut Vec<u8>, random: &mut Random) {
    let ended = line.pop_if(|byte| *byte == b'\n').is_some();
    let length = match random.below(8) {
        0..=2 => MOST_BYTES,
        3..=5 => MOST_BYTES + 1,
        6 => MOST_BYTES - 30 + random.below(MOST_BYTES),
        _ => random.between(4_000, 140_000) as usize,
    };
    let filler = random.pick(b"077\tx");
    line.resize(length, filler);
    if ended || random.percent(70) {
        line.push(b'\n');
    }
}

/// Loses the last LF, or the end of the trace from any byte.
fn truncate(lines: &mut Vec<Vec<u8>>, random: &mut Random) {
    if lines.is_empty() {
        return;
    }
    let kept = mostly_late(lines.len(), random) + 1;
    lines.truncate(kept);
    let last = &mut lines[kept - 1];
    let bytes = match random.below(4) {
        0 => 1,
        1 => random.below(last.len() + 1),
        _ => last.len().saturating_sub(1),
    };
    last.truncate(bytes);
}
