//! Twins: numbers that differ, but are equal modulo 2^32, so that whoever held them in 32 bits would take one for the other.

use crate::limits::Number;
use crate::random::Random;

/// The least number of more than 32 bits, which is the twin of 0.
pub const HIGH: Number = 1 << 32;
/// A multiple of 4 such as an address is on a VM of 64 bits.
pub const ADDRESS: Number = 140_187_412_345_672;

/// What differs between twins.
const HALVES: [Number; 4] = [
    HIGH,
    2 * HIGH,
    ADDRESS & !(HIGH - 1),
    Number::MAX & !(HIGH - 1),
];

pub fn are_twins(one: Number, other: Number) -> bool {
    one != other && one % HIGH == other % HIGH
}

/// Some twin of a number.
pub fn twin_of(number: Number, random: &mut Random) -> Number {
    number ^ random.pick(&HALVES)
}
