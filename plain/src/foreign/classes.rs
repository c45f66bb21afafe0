//! Foreign class tables, and classes stated in rows: chains of supers that lead to a reserved class, in circles, or out of the table.

use crate::class::{FIRST_DECLARED, OBJECT, THROWABLE};
use crate::limits::{Class, Number, MOST_CLASSES};
use crate::random::Random;
use crate::twin::{twin_of, HIGH};

const LAST: Class = MOST_CLASSES as Class;
/// The classes from the first that can be declared on, and from the last down, of which the most are.
const FEW: Class = 12;

/// A number for each class: those that lines name are mostly declared, below one another; of the others none is, or all are.
pub fn small(random: &mut Random, supers: &mut [Number]) {
    let chance = random.pick(&[0, 70, 90, 100, 100]);
    let all = random.pick(&[0, 0, 1, Number::MAX]);
    supers.fill(all);
    for class in (1..FIRST_DECLARED + FEW).chain(LAST - FEW..=LAST) {
        if let Some(number) = supers.get_mut(class as usize - 1) {
            *number = if random.percent(chance) {
                superclass(random, class)
            } else {
                0
            };
        }
    }
    if random.percent(20) {
        long_chain(random, supers);
    }
}

/// One chain of all classes, up or down, which ends at a reserved class, nowhere, or where it began.
fn long_chain(random: &mut Random, supers: &mut [Number]) {
    let past = LAST + 1;
    let end = random.pick(&[1, 2, 2, 3, 3, 4, 4, 0, FIRST_DECLARED, LAST, past]);
    let is_down = random.percent(50);
    for (number, class) in supers.iter_mut().zip(1..=LAST) {
        let superclass = match (is_down, class) {
            (true, ..=FIRST_DECLARED) | (false, LAST) => end,
            (true, _) => class - 1,
            (false, _) => class + 1,
        };
        *number = superclass.into();
    }
}

/// Changes the number of some class, mostly of one that lines name.
pub fn damage(random: &mut Random, supers: &mut [Number]) {
    if supers.is_empty() {
        return;
    }
    let class = match random.below(4) {
        0 => random.between(1, LAST),
        1 => random.between(LAST - FEW, LAST),
        _ => random.between(1, FIRST_DECLARED + FEW),
    };
    if let Some(number) = supers.get_mut(class as usize - 1) {
        *number = superclass(random, class);
    }
}

/// The class in a row: often none, mostly one that there may be, or its twin.
pub fn stated(random: &mut Random) -> Number {
    let class = match random.below(10) {
        0 | 1 => 0,
        2 => other(random),
        3 | 4 => random.between(OBJECT, THROWABLE).into(),
        _ => one(random).into(),
    };
    twin_or_itself(random, class)
}

/// A class that lines name, declared or not.
pub fn one(random: &mut Random) -> Class {
    match random.below(6) {
        0 => random.between(LAST - FEW, LAST),
        1 => random.pick(&[FIRST_DECLARED, LAST]),
        _ => random.between(1, FIRST_DECLARED + FEW),
    }
}

/// What stands at a class as its super.
fn superclass(random: &mut Random, class: Class) -> Number {
    let superclass = match random.below(15) {
        0..=6 => random.between(OBJECT, THROWABLE).into(),
        7 | 14 => other(random),
        8 => class.into(),
        9 | 10 => one(random).into(),
        _ => class.saturating_sub(random.between(1, 3)).into(),
    };
    twin_or_itself(random, superclass)
}

/// Mostly the class itself.
fn twin_or_itself(random: &mut Random, class: Number) -> Number {
    match random.below(20) {
        0 => twin_of(class, random),
        _ => class,
    }
}

/// What is no class, or is one only in its low bits.
fn other(random: &mut Random) -> Number {
    let class = Number::from(one(random));
    let past = Number::from(LAST + 1);
    random.pick(&[
        0,
        past,
        past,
        past + 1,
        past + class % Number::from(FEW),
        (1 << 16) + class,
        (1 << 31) + class,
        HIGH,
        HIGH,
        HIGH + class,
        Number::MAX,
    ])
}
