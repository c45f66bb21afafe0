//! Handles in foreign rows that all have the same slot in the proved judge's index, where it helps least.

use crate::big::slot::Slots;
use crate::facts::{LOCAL, WEAK};
use crate::lent::references::{Reference, HANDLE};
use crate::lent::rows::THREAD;
use crate::limits::{Handle, THREADS};
use crate::twin::HIGH;
use std::sync::LazyLock;

/// The slot, and how many handles of it there are of each owner and kind.
const SLOT: usize = 1;
const FEW: usize = 6;

/// By owner, kind and index.
static HANDLES: LazyLock<Vec<[[Handle; FEW]; WEAK as usize + 1]>> = LazyLock::new(|| {
    let mut slots = Slots::new(SLOT);
    let mut handle = |owner, kind, index| match kind {
        LOCAL..=WEAK => slots.handle(owner, kind, index),
        _ => 4 * index as Handle,
    };
    let owners = 0..=THREADS.into();
    let of_owner = |owner| {
        std::array::from_fn(|kind| {
            std::array::from_fn(|index| handle(owner, kind as Handle, index))
        })
    };
    owners.map(of_owner).collect()
});

/// Puts a handle of the slot and of the same kind in each row whose thread is one; its high half stays, so that there are twins.
pub fn crowd(rows: &mut [Reference]) {
    for row in rows {
        if let Some(kinds) = HANDLES.get(row[THREAD] as usize) {
            let handle = row[HANDLE] as usize;
            row[HANDLE] = row[HANDLE] / HIGH * HIGH + kinds[handle % 4][handle / 4 % FEW];
        }
    }
}
