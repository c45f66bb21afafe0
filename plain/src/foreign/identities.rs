//! Foreign places of identities: full, free and in between, as M would leave them or not, with what states nothing.

use crate::identity::{FIELD, METHOD};
use crate::lent::identities::{Place, Places, FINAL, IDENTITY, SORT, STATIC};
use crate::limits::{Handle, Number, IDENTITY_NUMBERS};
use crate::random::Random;
use crate::twin::{twin_of, HIGH};

/// How many identities lines mostly name.
const FEW: u32 = 24;

/// Places of which some are taken: each identity where M would have put it, or anywhere, or both by turns.
pub fn small(random: &mut Random, numbers: &mut [Number]) {
    let taken = random.pick(&[0, 30, 60, 90, 90, 100, 100]);
    let orderly = random.pick(&[0, 50, 100, 100]);
    // What is past the last place would state one, if it were looked at.
    numbers.fill(random.pick(&[0, 1, 4, 8, HIGH]));
    let room = numbers.len() / IDENTITY_NUMBERS;
    numbers[..room * IDENTITY_NUMBERS].fill(0);
    for at in 0..room {
        if !random.percent(taken) {
            continue;
        }
        let place = small_place(random);
        let at = match Places::new(numbers).find(place[IDENTITY]) {
            Some(found) if random.percent(orderly) => found,
            _ => at,
        };
        numbers.as_chunks_mut().0[at] = place;
    }
}

/// Changes a number of some place, or frees it.
pub fn damage(random: &mut Random, numbers: &mut [Number]) {
    let places = numbers.as_chunks_mut::<IDENTITY_NUMBERS>().0;
    if places.is_empty() {
        return;
    }
    let at = random.below(places.len());
    let from = random.below(places.len());
    match random.below(5) {
        0 => places[at][IDENTITY] = 0,
        1 => places[at] = places[from],
        2 => places[at] = small_place(random),
        _ => {
            let column = random.below(IDENTITY_NUMBERS);
            places[at][column] = small_place(random)[column];
        }
    }
}

/// An identity that lines name.
pub fn one(random: &mut Random) -> Handle {
    4 * Handle::from(random.between(1, FEW))
}

/// What may stand at a place: what M writes, or often one number is another.
fn small_place(random: &mut Random) -> Place {
    let mut place = [
        one(random),
        random.between(METHOD, FIELD).into(),
        random.between(0, 1).into(),
        random.between(0, 1).into(),
    ];
    if random.percent(75) {
        let column = random.pick(&[IDENTITY, SORT, SORT, STATIC, STATIC, FINAL, FINAL, FINAL]);
        let number = place[column];
        place[column] = match (column, random.below(3)) {
            (_, 0) => twin_of(number, random),
            (IDENTITY, _) => random.pick(&[0, number + 1, number + 2, number + 3, Number::MAX - 3]),
            (SORT, _) => random.pick(&[0, 3]),
            _ => random.pick(&[2, HIGH, HIGH + 1, Number::MAX]),
        };
    }
    place
}
