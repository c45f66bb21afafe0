//! The judge over lent tables, whatever they hold: a start, a step, a piece of many lines and the leak list.
//!
//! Document 01 gives the layout and the rules. Where it says nothing of foreign numbers they mean what the definitions
//! of the proved judge make of them; a comment says so at each such place.

pub mod book;
pub mod classes;
pub mod identities;
pub mod leaks;
pub mod lookup;
pub mod piece;
pub mod pins;
pub mod references;
pub mod reply;
pub mod rows;
pub mod slices;
mod step;

use book::Book;
use classes::Classes;
use identities::Places;
use pins::Pins;
use references::References;

/// What is seen in the six lent slices; rows are scanned and places looked through if nothing else is said.
pub struct Tables<'a, H = References<'a>, B = Pins<'a>, I = Places<'a>> {
    pub references: H,
    pub pins: B,
    pub book: Book<'a>,
    pub classes: Classes<'a>,
    pub identities: I,
}
