//! Stores of both kinds, held against the plain map and a slow search.

use super::{History, head};
use crate::compare::Outcome;
use crate::draw;
use crate::edit::Deed;
use crate::kinds::{Call, Kind};
use crate::lengths;
use crate::live;
use crate::oracle::Oracle;
use crate::search_ends::Search;

impl History<'_, '_> {
    pub fn store(&mut self) -> Outcome<()> {
        let kind = match self.rng.percent(self.tight) {
            true => Kind::Tight,
            false => Kind::OnTheSpot,
        };
        let key = draw::offered_key(self.rng, &self.plan, self.keys);
        let value = self.value_for(&key);
        let number = self.store_of(kind, &key, &value)?;
        if number == 10 && self.grows > 0 && self.rng.percent(50) {
            self.again_after_a_bulk(kind, &key, &value)?;
        } else if number == 10 && self.rng.percent(20) {
            self.again_after_removals(kind, &key, &value)?;
        }
        Ok(())
    }

    pub fn store_of(&mut self, kind: Kind, key: &[u8], value: &[u8]) -> Outcome<u32> {
        let refused = self.plan.offered_number(key.len(), Some(value.len()));
        let place = if refused == 0 {
            self.place_for(kind, key, value)
        } else {
            None
        };
        let number = self.pair.store(kind, key, value)?;
        let full = if place.is_none() { 10 } else { 0 };
        let expected = if refused != 0 { refused } else { full };
        self.expect(kind.name(), number, expected)?;
        self.not_full(key, value, number)?;
        if kind == Kind::Tight && self.records.contains_key(key) {
            self.is_removed_first(key, value, number)?;
        }
        match place {
            Some(place) => self.stored(Call::Store(kind), key.to_vec(), value.to_vec(), place)?,
            None => self.refused_alike(kind, key, value, number)?,
        }
        Ok(number)
    }

    fn value_for(&mut self, key: &[u8]) -> Vec<u8> {
        let (rng, plan) = (&mut *self.rng, &self.plan);
        match self.records.get(key) {
            Some(value) if rng.percent(5) => value.clone(),
            Some(value) if rng.percent(30) => {
                draw::value_of_as_many(rng, plan, key.len(), value.len())
            }
            _ => draw::offered_value(rng, plan, key.len()),
        }
    }

    /// The chunks of a key's record in the map.
    fn old_chunks(&self, key: &[u8]) -> Option<usize> {
        let old = self.records.get(key)?;
        Some(self.plan.chunks_of(key.len(), old.len()))
    }

    /// Whether a value takes as many chunks as the record that it replaces.
    pub fn is_as_many(&self, key: &[u8], value: &[u8]) -> bool {
        self.old_chunks(key) == Some(self.plan.chunks_of(key.len(), value.len()))
    }

    /// As many chunks or fewer have room where the old ones are, and as many
    /// as an entry may take where the old one is the only one in its tier.
    pub fn not_full(&self, key: &[u8], value: &[u8], number: u32) -> Outcome<()> {
        let chunks = self.plan.chunks_of(key.len(), value.len());
        let old_chunks = self.old_chunks(key).unwrap_or(0);
        if number == 10 && (chunks <= old_chunks || self.is_alone(key)) {
            return Err(format!("10 for {chunks} chunks in place of {old_chunks}"));
        }
        Ok(())
    }

    /// The key has an entry, which is the only one in its tier.
    fn is_alone(&self, key: &[u8]) -> bool {
        let (plan, image) = (&self.plan, self.pair.image());
        let old = live::entry_of(plan, image, key);
        old.is_some_and(|old| Oracle { plan, image }.full_slots(old.tier) == 1)
    }

    /// Tier and chunk that a store must choose.
    pub fn place_for(&self, kind: Kind, key: &[u8], value: &[u8]) -> Option<(usize, usize)> {
        let (plan, image) = (&self.plan, self.pair.image());
        if kind == Kind::OnTheSpot && self.is_as_many(key, value) {
            let old = live::entry_of(plan, image, key)?;
            return Some((old.tier, old.chunk));
        }
        let chunks = plan.chunks_of(key.len(), value.len());
        let old_chunks = self.old_chunks(key).unwrap_or(0);
        Oracle { plan, image }.place(key, chunks, old_chunks)
    }

    /// What holds after a store that was answered 0.
    pub fn stored(
        &mut self,
        call: Call,
        key: Vec<u8>,
        value: Vec<u8>,
        place: (usize, usize),
    ) -> Outcome<()> {
        let kind = call.kind();
        self.stands_at(&key, &value, place)?;
        self.course.stored(kind == Kind::Tight);
        self.joined(place.0);
        for length in lengths::brought(key.len(), value.len()) {
            self.pair.met(length);
        }
        let as_many = self.is_as_many(&key, &value);
        let deed = match kind {
            Kind::OnTheSpot if as_many => Deed::OnTheSpot(place.0),
            _ => Deed::Placed(place.0),
        };
        self.edited(&key, deed, |links| links.of_store(call, as_many))?;
        self.by_both_kinds(kind, &key, &value)?;
        self.records.insert(key, value);
        Ok(())
    }

    fn stands_at(&mut self, key: &[u8], value: &[u8], place: (usize, usize)) -> Outcome<()> {
        let expected = self.plan.chunk(place.0, place.1) + head(key.len(), value.len());
        let (number, found) = self.pair.lookup(key)?;
        let [offset, _, tier, slot] = found;
        if offset as usize != expected {
            return Err(format!("store: record at {offset}, meant was {expected}"));
        }
        if self.records.contains_key(key) {
            return self.search_end(key, number, found);
        }
        let search = Search {
            plan: &self.plan,
            image: self.pair.before(),
            key,
        };
        let events = search.stored_at(tier as usize, slot as usize)?;
        events.into_iter().for_each(|event| self.pair.met(event));
        Ok(())
    }
}
