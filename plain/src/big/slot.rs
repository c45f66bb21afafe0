//! The slot of a handle in the proved judge's index, and handles that all have the same one.

use crate::facts::WEAK;
use crate::limits::{Handle, Number, THREADS};

const HALF: Handle = 1 << 32;

/// The slot where the row of a handle is looked for first; the thread is that of a local, or 0.
pub fn slot_of(thread: Number, handle: Handle) -> usize {
    let halves = handle % HALF * 2_654_435_769 + handle / HALF * 1_597_334_677;
    let spread = halves + thread % 32 * 2_246_822_519;
    (spread / 131_072 % 32_768) as usize
}

/// The handles of one slot, found by trying numbers in order.
pub struct Slots {
    slot: usize,
    /// Those found so far of each owner and kind.
    found: [[Vec<Handle>; WEAK as usize + 1]; 1 + THREADS as usize],
}

impl Slots {
    pub fn new(slot: usize) -> Slots {
        Slots {
            slot,
            found: Default::default(),
        }
    }

    /// The handle with this index among those of an owner and a kind.
    pub fn handle(&mut self, owner: Number, kind: Handle, index: usize) -> Handle {
        let found = &mut self.found[owner as usize][kind as usize];
        while found.len() <= index {
            let first = found.last().map_or(4 + kind, |last| last + 4);
            let mut next = (first..=Handle::MAX).step_by(4);
            let next = next.find(|&handle| slot_of(owner, handle) == self.slot);
            found.push(next.expect("a handle of the slot"));
        }
        found[index]
    }
}
