//! A copy of a sound store that is made wrong in one place, or stays sound.

use super::counters::Broken;
use super::keys::Keys;
use super::rules::full_slots;
use crate::model::{Draft, Model, Placed};
use crate::rng::Rng;

pub struct Trial<'a> {
    pub rng: &'a mut Rng,
    pub keys: &'a mut Keys,
    pub model: Model,
}

/// What the check must answer, and what has come up if it does.
pub struct Meant {
    pub number: u32,
    pub events: Vec<String>,
    /// What is broken in the bytes besides.
    pub broken: Option<Broken>,
}

/// A tier by its place in the chain of a segment.
#[derive(Clone, Copy, PartialEq)]
pub struct At {
    pub segment: usize,
    pub order: usize,
}

impl Meant {
    pub fn new(number: u32, events: Vec<String>) -> Meant {
        Meant {
            number,
            events,
            broken: None,
        }
    }
}

/// The first empty slot from a start, wrapping.
pub fn gap_from(full: &[bool], start: usize) -> Option<usize> {
    let slots = (start..full.len()).chain(0..start);
    slots.into_iter().find(|&slot| !full[slot])
}

impl Trial<'_> {
    pub fn tier(&self, at: At) -> usize {
        self.model.chains[at.segment][at.order]
    }

    pub fn full(&self, tier: usize) -> Vec<bool> {
        full_slots(&self.model.plan, &self.model.tiers[tier])
    }

    pub fn start(&self, placed: &Placed) -> usize {
        let plan = &self.model.plan;
        plan.start(placed.slot_value & plan.all_ones())
    }

    /// Any tier of a chain.
    pub fn any_tier(&mut self) -> At {
        let segment = self.rng.below(self.model.chains.len());
        let order = self.rng.below(self.model.chains[segment].len());
        At { segment, order }
    }

    /// Any tier with entries, in a few tries.
    pub fn any_filled(&mut self) -> Option<At> {
        let tries = 0..8;
        let mut tiers = tries.map(|_| self.any_tier()).collect::<Vec<At>>();
        tiers.retain(|&at| !self.model.tiers[self.tier(at)].is_empty());
        tiers.first().copied()
    }

    /// A full slot of a tier with entries: often the first or the last.
    pub fn any_slot(&mut self, tier: usize) -> usize {
        let end = self.model.plan.slots - 1;
        let full = self.full(tier);
        match self.rng.below(8) {
            0 if full[0] => 0,
            1 | 2 if full[end] => end,
            _ => self.rng.pick(&self.model.tiers[tier]).slot,
        }
    }

    pub fn placed(&self, tier: usize, slot: usize) -> &Placed {
        let mut tier = self.model.tiers[tier].iter();
        let placed = tier.find(|placed| placed.slot == slot);
        placed.expect("the slot is full")
    }

    pub fn placed_mut(&mut self, tier: usize, slot: usize) -> &mut Placed {
        let mut tier = self.model.tiers[tier].iter_mut();
        let placed = tier.find(|placed| placed.slot == slot);
        placed.expect("the slot is full")
    }

    pub fn take_out(&mut self, tier: usize, slot: usize) {
        self.model.tiers[tier].retain(|placed| placed.slot != slot);
    }

    /// Puts an entry where a search for it ends, and answers its slot. A tier
    /// without room loses the end of a run first, from which no other slot is
    /// reached, but for the slot `kept`.
    pub fn add(&mut self, tier: usize, draft: Draft, kept: Option<usize>) -> Option<usize> {
        let slots = self.model.plan.slots;
        let many = self.model.tiers[tier].len() + 2 > slots;
        let run = self.model.clear_run(self.rng, tier, draft.chunks);
        if many || run.is_none() {
            let end = self.run_end(tier, kept)?;
            self.take_out(tier, end);
        }
        let chunk = self.model.clear_run(self.rng, tier, draft.chunks)?;
        let start = self.model.plan.start(draft.lookup_key);
        let slot = gap_from(&self.full(tier), start)?;
        self.model.place_at(tier, slot, chunk, draft)?;
        Some(slot)
    }

    /// A full slot before an empty one.
    pub fn run_end(&mut self, tier: usize, kept: Option<usize>) -> Option<usize> {
        let full = self.full(tier);
        let slots = full.len();
        let first = self.rng.below(slots);
        let mut ends = (first..slots).chain(0..first);
        ends.find(|&slot| full[slot] && !full[(slot + 1) % slots] && Some(slot) != kept)
    }

    /// A new key of a segment, in a few tries.
    pub fn new_key(&mut self, segment: usize) -> Option<Vec<u8>> {
        let tries = 8 * self.model.chains.len();
        let mut keys = (0..tries).filter_map(|_| self.keys.next(self.rng));
        keys.find(|key| self.model.plan.parts(key).0 == segment)
    }
}
