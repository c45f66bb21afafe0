//! A map by keys of a few numbers, hashed by one multiplication: the std hasher withstands chosen keys, and takes longer.

use std::collections::HashMap;
use std::hash::{BuildHasherDefault, Hasher};

pub type Map<Key, Value> = HashMap<Key, Value, BuildHasherDefault<Fold>>;

/// The numbers of a key, turned over one another, are multiplied in the end, and the product's halves folded.
#[derive(Clone, Copy, Debug, Default)]
pub struct Fold(u64);

const TURN: u32 = 23;
const MULTIPLIER: u64 = 0xd6e8_feb8_6659_fd93;

impl Hasher for Fold {
    fn write(&mut self, bytes: &[u8]) {
        for &byte in bytes {
            self.write_u64(byte.into());
        }
    }

    fn write_u64(&mut self, number: u64) {
        self.0 = self.0.rotate_left(TURN) ^ number;
    }

    fn finish(&self) -> u64 {
        let product = u128::from(self.0) * u128::from(MULTIPLIER);
        product as u64 ^ (product >> u64::BITS) as u64
    }
}
