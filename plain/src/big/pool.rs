//! The identities that a balanced trace states first, and then uses: as many methods as static methods, fields and static fields.

use crate::class::OBJECT;
use crate::identity::{Wanted, FIELD, METHOD};
use crate::limits::Handle;
use crate::line::Event;
use crate::random::Random;

const IDENTITIES: usize = 64;
/// From an identity to the next.
const STRIDE: Handle = 4 * 1_234_567;

pub struct Pool {
    /// The number from which they are counted.
    base: Handle,
    stated: usize,
}

impl Pool {
    pub fn new(base: Handle) -> Pool {
        Pool { base, stated: 0 }
    }

    /// The next statement, as long as not all are stated.
    pub fn statement(&mut self) -> Option<Event> {
        let index = self.stated;
        self.stated += 1;
        (index < IDENTITIES).then(|| Event::M {
            identity: self.identity(index),
            sort: [METHOD, FIELD][index % 2],
            class: OBJECT,
            is_static: index as u32 / 2 % 2,
            is_final: 0,
        })
    }

    /// One of those that are wanted, and now and then any.
    pub fn pick(&self, wanted: Wanted, random: &mut Random) -> Handle {
        let index = random.below(IDENTITIES);
        if random.below(300) == 0 {
            return self.identity(index);
        }
        let sort = usize::from(wanted.sort == FIELD);
        let is_static = usize::from(wanted.is_static == Some(true));
        self.identity(index / 4 * 4 + 2 * is_static + sort)
    }

    fn identity(&self, index: usize) -> Handle {
        self.base + 4 + STRIDE * index as Handle
    }
}
