//! The indexed judge: the rules of the plain one over the same tables, their rows and identities found by indexes that are kept beside them.
//!
//! The indexes know of a row what was done through them, so the tables are from a start; foreign contents are not taken.

mod buffers;
mod free;
mod handles;
mod hash;
mod identities;

use crate::judge::Judge;
use crate::lent::book::Book;
use crate::lent::classes::Classes;
use crate::lent::identities::Places;
use crate::lent::lookup::Lookup;
use crate::lent::rows::Rows;
use crate::lent::slices::Lent;
use crate::lent::Tables;
use crate::room::Room;
use buffers::{BufferIndex, IndexedBuffers};
use handles::{HandleIndex, IndexedHandles};
use identities::{IdentityIndex, IndexedIdentities};

/// The indexes of tables of which no row and no place is used, and what they become by the lines.
#[derive(Clone, Debug, Default)]
pub struct Indexes {
    handles: HandleIndex,
    buffers: BufferIndex,
    identities: IdentityIndex,
}

impl Lookup for Indexes {
    type Handles<'a> = IndexedHandles<'a>;
    type Buffers<'a> = IndexedBuffers<'a>;
    type Identities<'a> = IndexedIdentities<'a>;

    fn tables<'a>(
        &'a mut self,
        lent: Lent<'a>,
    ) -> Tables<'a, IndexedHandles<'a>, IndexedBuffers<'a>, IndexedIdentities<'a>> {
        let (classes, identities) = Classes::split(lent.classes);
        Tables {
            references: IndexedHandles {
                rows: Rows::new(lent.rows, lent.marks),
                index: &mut self.handles,
            },
            pins: IndexedBuffers {
                rows: Rows::new(lent.pins, lent.pin_marks),
                index: &mut self.buffers,
            },
            book: Book::new(lent.book),
            classes,
            identities: IndexedIdentities {
                places: Places::new(identities),
                index: &mut self.identities,
            },
        }
    }
}

impl Judge<Indexes> {
    pub fn indexed(room: Room) -> Judge<Indexes> {
        Judge::with(Indexes::default(), room)
    }
}
