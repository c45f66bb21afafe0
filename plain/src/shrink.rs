//! The shrinker: it looks for the smallest part of a trace on which two judges still differ.

use crate::limits::THREADS;

/// Shrinks a trace while `differs` holds of it: drops lines, lowers threads, then shortens fields.
pub fn shrink(trace: &[u8], mut differs: impl FnMut(&[u8]) -> bool) -> Vec<u8> {
    let mut lines: Vec<Vec<u8>> = trace
        .split_inclusive(|&byte| byte == b'\n')
        .map(Vec::from)
        .collect();
    loop {
        let before = lines.clone();
        drop_runs(&mut lines, &mut differs);
        drop_pairs(&mut lines, &mut differs);
        lower_threads(&mut lines, &mut differs);
        shorten_fields(&mut lines, &mut differs);
        if lines == before {
            return lines.concat();
        }
    }
}

/// Takes the other lines instead, if the judges still differ on them.
fn try_instead(
    lines: &mut Vec<Vec<u8>>,
    other: Vec<Vec<u8>>,
    differs: &mut impl FnMut(&[u8]) -> bool,
) -> bool {
    let better = differs(&other.concat());
    if better {
        *lines = other;
    }
    better
}

/// Drops runs of lines, from half of them to single ones, the last lines first; short runs from any line on.
fn drop_runs(lines: &mut Vec<Vec<u8>>, differs: &mut impl FnMut(&[u8]) -> bool) {
    let mut run = lines.len().div_ceil(2);
    while run > 0 {
        let is_short = run <= 4;
        let mut end = lines.len();
        while end > 0 {
            let start = end.saturating_sub(run);
            let mut other = lines.clone();
            other.drain(start..end);
            let dropped = try_instead(lines, other, differs);
            end = if is_short && !dropped { end - 1 } else { start };
        }
        run = if is_short { run - 1 } else { run / 2 };
    }
}

/// Drops two lines of one thread together, as a C and its R, an N and its X or an A and its D are to be.
fn drop_pairs(lines: &mut Vec<Vec<u8>>, differs: &mut impl FnMut(&[u8]) -> bool) {
    let mut first = lines.len();
    while first > 0 {
        first -= 1;
        let partners = partners(lines, first);
        for second in partners {
            let mut other = lines.clone();
            other.remove(second);
            other.remove(first);
            if try_instead(lines, other, differs) {
                break;
            }
        }
    }
}

/// The next few lines that may answer a C, an N or an A: of the same thread, R, X or D.
fn partners(lines: &[Vec<u8>], first: usize) -> Vec<usize> {
    let answer = match lines[first].first() {
        Some(b'C') => b'R',
        Some(b'N') => b'X',
        Some(b'A') => b'D',
        _ => return Vec::new(),
    };
    let thread = |line: &[u8]| line.split(|&byte| byte == b'\t').nth(1).map(Vec::from);
    let own = thread(&lines[first]);
    let answers = |line: &[u8]| line.first() == Some(&answer) && thread(line) == own;
    let later = (first + 1..lines.len()).filter(|&second| answers(&lines[second]));
    later.take(4).collect()
}

/// Gives all lines of a thread a lower number for it.
fn lower_threads(lines: &mut Vec<Vec<u8>>, differs: &mut impl FnMut(&[u8]) -> bool) {
    for thread in 2..=THREADS {
        for lower in 1..thread {
            let (old, new) = (thread.to_string(), lower.to_string());
            let renamed = lines.iter().map(|line| {
                let mut fields = fields_of(line);
                let has_thread = line
                    .first()
                    .is_some_and(|letter| b"NXCRADO".contains(letter));
                if has_thread && fields.get(1).is_some_and(|field| *field == old.as_bytes()) {
                    fields[1] = new.clone().into_bytes();
                }
                line_of(line, fields)
            });
            let other: Vec<Vec<u8>> = renamed.collect();
            if other != *lines && try_instead(lines, other, differs) {
                break;
            }
        }
    }
}

/// Puts shorter fields in place of fields, everywhere at once and then one by one.
fn shorten_fields(lines: &mut Vec<Vec<u8>>, differs: &mut impl FnMut(&[u8]) -> bool) {
    let mut fields: Vec<Vec<u8>> = lines.iter().flat_map(|line| fields_of(line)).collect();
    fields.sort();
    fields.dedup();
    for field in fields {
        for short in shorter(&field) {
            let renamed = lines.iter().map(|line| {
                let rename = |other: Vec<u8>| if other == field { short.clone() } else { other };
                line_of(line, fields_of(line).into_iter().map(rename).collect())
            });
            let other = renamed.collect();
            if try_instead(lines, other, differs) {
                break;
            }
        }
    }
    for index in 0..lines.len() {
        for at in 0..fields_of(&lines[index]).len() {
            for short in shorter(&fields_of(&lines[index])[at]) {
                let mut changed = fields_of(&lines[index]);
                changed[at] = short;
                let mut other = lines.clone();
                other[index] = line_of(&lines[index], changed);
                if try_instead(lines, other, differs) {
                    break;
                }
            }
        }
        let named = fields_of(&lines[index]).len();
        for at in (0..named).rev() {
            let mut changed = fields_of(&lines[index]);
            changed.remove(at);
            let mut other = lines.clone();
            other[index] = line_of(&lines[index], changed);
            try_instead(lines, other, differs);
        }
    }
}

fn fields_of(line: &[u8]) -> Vec<Vec<u8>> {
    let body = line.strip_suffix(b"\n").unwrap_or(line);
    body.split(|&byte| byte == b'\t').map(Vec::from).collect()
}

/// The fields as a line, with an LF if the old line has one.
fn line_of(old: &[u8], fields: Vec<Vec<u8>>) -> Vec<u8> {
    let mut line = fields.join(&b'\t');
    if old.ends_with(b"\n") {
        line.push(b'\n');
    }
    line
}

/// What may stand instead of a field, the shortest first: small numbers of the same kind, or half of it.
fn shorter(field: &[u8]) -> Vec<Vec<u8>> {
    let number = std::str::from_utf8(field)
        .ok()
        .and_then(|text| text.parse::<u64>().ok());
    let mut shorter: Vec<Vec<u8>> = match number {
        Some(number) => [0, 1, 2, 3]
            .into_iter()
            .chain((1..4).map(|step| number % 4 + 4 * step))
            .filter(|&small| small < number)
            .map(|small| small.to_string().into_bytes())
            .collect(),
        None => Vec::new(),
    };
    if field.len() > 1 {
        shorter.push(field[..field.len() / 2].to_vec());
        shorter.push(field[..field.len() - 1].to_vec());
    }
    shorter.retain(|short| short.len() <= field.len() && short != field);
    shorter
}
