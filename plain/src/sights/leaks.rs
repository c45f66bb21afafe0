//! What the leaks of a closed trace show: how each was made, which equal ones ended before it, and what their order tells.

use super::past::Past;
use super::{buffer_of, few};
use crate::facts::GLOBAL;
use crate::lent::leaks::Leak;
use crate::lent::rows::{Rows, LINE, THREAD};
use crate::lent::Tables;

pub fn shown(tables: &Tables, past: &Past, is_refused: bool) -> Vec<String> {
    let Ok(leaks) = tables.leaks() else {
        return Vec::new();
    };
    let mut shown = vec![format!("{} leaks, refused {is_refused}", few(leaks.len()))];
    shown.extend(leaks.iter().map(|leak| one(tables, past, leak)));
    for leak in &leaks {
        shown.push(format!(
            "leak: line of {} digits",
            leak.line.to_string().len()
        ));
    }
    for pair in leaks.windows(2) {
        let rules = pair[0].rule.cmp(&pair[1].rule);
        let rows = row(tables, &pair[0]).cmp(&row(tables, &pair[1]));
        shown.push(format!("leaks: rules {rules:?}, rows {rows:?}"));
    }
    shown
}

fn one(tables: &Tables, past: &Past, leak: &Leak) -> String {
    if leak.rule == 10 {
        let kind = if leak.value % 4 == GLOBAL {
            "global"
        } else {
            "weak"
        };
        return format!("leak: {kind}, {}", past.of_handle(0, leak.value));
    }
    let rows = &tables.pins.rows;
    let buffer = buffer_of(&rows.all()[row(tables, leak)]);
    let kind = if buffer[THREAD] == 0 {
        "ordinary"
    } else {
        "critical"
    };
    let released = past.released(buffer);
    let earlier = released.iter().any(|&line| line < leak.line);
    let later = released.iter().any(|&line| line > leak.line);
    let equal = few(rows.count(|other| buffer_of(other) == buffer));
    format!("leak: {equal} {kind}, released earlier {earlier}, later {later}")
}

/// The row of a leak: from a start no two that leak have the same line.
fn row(tables: &Tables, leak: &Leak) -> usize {
    fn at<const NUMBERS: usize>(rows: &Rows<NUMBERS>, leak: &Leak) -> usize {
        let mut all = 0..rows.room();
        all.find(|&index| rows.all()[index][LINE] == leak.line && rows.is_used(index))
            .expect("a used row")
    }
    match leak.rule {
        8 => at(&tables.pins.rows, leak),
        _ => at(&tables.references.rows, leak),
    }
}
