//! What the fields of a line show: numbers at the ends of their ranges and just past them, and what is no line at all.

use crate::damage;
use crate::facts::{known, LOCAL};
use crate::form::{form, Form, Kind, HANDLE, RESULT};
use crate::limits::{Field, Handle, MOST_BYTES};
use crate::line::Event;
use crate::refusal::{Refusal, MALFORMED, NO_LINE};
use crate::twin::HIGH;
use std::collections::BTreeSet;

pub fn of_read(event: &Event) -> Vec<String> {
    let (letter, numbers) = event.parts().expect("an event that was read");
    let form = form(letter).expect("a letter");
    let shown = |(index, (&number, kind)): (usize, (&Field, Kind))| match edge(kind, number) {
        _ if kind == RESULT => {
            let (letter, class) = result(numbers[1], number);
            Some(format!("result {letter}, {class}"))
        }
        Some(edge) => Some(format!("{} {edge}", place(form, index))),
        None => None,
    };
    numbers
        .iter()
        .zip(form.kinds())
        .enumerate()
        .filter_map(shown)
        .collect()
}

/// A line refused with 1 to 3.
pub fn of_unread(line: &[u8], refusal: Refusal) -> Vec<String> {
    if refusal == NO_LINE {
        let bytes = line.len().clamp(MOST_BYTES, MOST_BYTES + 3);
        return vec![format!("1: {bytes} bytes, LF {}", line.ends_with(b"\n"))];
    }
    let text = String::from_utf8_lossy(&line[..line.len() - 1]);
    let fields: Vec<&str> = text.split('\t').collect();
    let (letter, fields) = (fields[0], &fields[1..]);
    let mut shown = match form(line[0]) {
        None => vec!["2: no letter".to_string()],
        Some(_) if letter.len() > 1 => vec!["2: more than a letter".to_string()],
        Some(form) if !form.counts(fields.len()) => {
            let count = fields.len().min(form.most() + 1);
            let are_numbers = fields.iter().all(|field| field.parse::<Field>().is_ok());
            let out = out(form, fields);
            vec![format!(
                "2: {letter} with {count}, numbers {are_numbers}, {out}"
            )]
        }
        Some(form) if refusal == MALFORMED => {
            let out = out(form, fields);
            let malformed = damage::MALFORMED
                .iter()
                .filter(|field| fields.contains(field));
            malformed
                .map(|field| format!("2: field '{field}'"))
                .chain([format!("2: {letter} malformed, {out}")])
                .collect()
        }
        Some(form) => out_of_range(form, fields),
    };
    if line.len() == MOST_BYTES + 1 {
        shown.push(format!("{refusal}: a line just as long as may be"));
    }
    shown
}

/// Whether some number is below its range, and above it; fields past the last are taken for handles.
fn out(form: &'static Form, fields: &[&str]) -> String {
    let kinds = form.kinds().chain(std::iter::repeat(HANDLE));
    let numbers = fields.iter().map(|field| field.parse::<Field>().ok());
    let numbers: Vec<(Field, Kind)> = numbers
        .zip(kinds)
        .filter_map(|(number, kind)| number.map(|number| (number, kind)))
        .collect();
    let below = numbers.iter().any(|(number, kind)| *number < kind.0);
    let above = numbers.iter().any(|(number, kind)| *number > kind.1);
    format!("below {below}, above {above}")
}

fn out_of_range(form: &'static Form, fields: &[&str]) -> Vec<String> {
    let number = |field: &&str| field.parse().unwrap_or(Field::MAX);
    let numbers: Vec<Field> = fields.iter().map(number).collect();
    if form.holds(&numbers) {
        return vec![match numbers[..] {
            [_, function, number, _] if form.letter == b'R' => {
                let (letter, class) = result(function, number);
                format!("3: result, status {}, {class}", letter == 'S')
            }
            [_, _, ref handles @ ..] if form.letter == b'N' => {
                let kinds = handles.iter().map(|handle| handle % 4);
                let others: BTreeSet<Field> = kinds.filter(|&kind| kind != LOCAL.into()).collect();
                format!("3: N names {others:?}, null {}", handles.contains(&0))
            }
            _ => format!("3: {}, each number in its range", form.name()),
        }];
    }
    let shown = |(index, (&number, kind)): (usize, (&Field, Kind))| match edge(kind, number) {
        Some(edge) if !kind.holds(number) => Some(format!("3: {} {edge}", place(form, index))),
        _ => None,
    };
    numbers
        .iter()
        .zip(form.kinds())
        .enumerate()
        .filter_map(shown)
        .collect()
}

/// A field by its letter and its place; the handles of an N are alike.
fn place(form: &'static Form, index: usize) -> String {
    format!("{} {}", form.name(), index.min(form.fields.len()))
}

fn edge(kind: Kind, number: Field) -> Option<&'static str> {
    let Kind(least, greatest) = kind;
    let is_cut = |bits| kind.holds(number.rem_euclid(Field::from(1) << bits));
    match number {
        _ if number == least => Some("least"),
        _ if number == greatest => Some("greatest"),
        _ if number == least - 1 => Some("just below"),
        _ if number == greatest + 1 => Some("just above"),
        _ if number == u32::MAX.into() => Some("last of 32 bits"),
        _ if number == HIGH.into() => Some("first of more than 32 bits"),
        _ if kind.holds(number) => None,
        _ if is_cut(u32::BITS) => Some("out, but not if cut to 32 bits"),
        _ if is_cut(Handle::BITS) => Some("out, but not if cut to 64 bits"),
        _ => None,
    }
}

/// The letter of a function's result, and what the result is beside its kind.
fn result(function: Field, result: Field) -> (char, &'static str) {
    let class = match result {
        0 => "0",
        _ if result == i32::MIN.into() => "least status",
        _ if result == i32::MAX.into() => "greatest status",
        _ if result < 0 => "negative",
        _ if result + 4 > Handle::MAX.into() => "greatest",
        _ => "some",
    };
    let function = function.try_into().expect("a function in range");
    (known(function).letters().1, class)
}
