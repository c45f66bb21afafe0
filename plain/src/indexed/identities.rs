//! The stated identities found by an index: of an identity its place.

use super::hash::Map;
use crate::identity::Stated;
use crate::lent::identities::Places;
use crate::lent::lookup::Identities;
use crate::limits::Handle;

#[derive(Clone, Debug, Default)]
pub struct IdentityIndex(Map<Handle, usize>);

pub struct IndexedIdentities<'a> {
    pub places: Places<'a>,
    pub index: &'a mut IdentityIndex,
}

impl Identities for IndexedIdentities<'_> {
    fn stated(&self, identity: Handle) -> Option<Stated> {
        let at = self.index.0.get(&identity)?;
        Some(self.places.stated_at(*at))
    }

    fn has_room_for(&self, identity: Handle) -> bool {
        let IdentityIndex(known) = &self.index;
        known.len() < self.places.room() || known.contains_key(&identity)
    }

    fn state(&mut self, identity: Handle, stated: Stated) {
        let IdentityIndex(known) = &mut self.index;
        let free = || self.places.find(identity).expect("a place for it");
        let at = *known.entry(identity).or_insert_with(free);
        self.places.put(at, identity, stated);
    }
}
