//! A key with two slots in its chain, each with an entry of its own, and sound
//! in all other rules.

use super::events::{
    IN_CHAIN, IN_TIER, NEWER, ONE_ENTRY, SLOTS, THREE_TIMES, newer, of_slots, twice,
};
use super::seen;
use super::trial::{At, Meant, Trial};
use crate::model::Draft;
use crate::tally::came;

/// The two slots of a key, by the order of the search.
struct Twins {
    at: [At; 2],
    slots: [usize; 2],
    start: usize,
    same_record: bool,
    /// The second was there before.
    newer_first: bool,
}

pub fn in_tier(trial: &mut Trial) -> Option<Meant> {
    let at = trial.any_filled()?;
    let tier = trial.tier(at);
    let slot = trial.any_slot(tier);
    let twins = trial.copied(at, slot, at)?;
    Some(trial.refused(&twins))
}

/// From a slot whose search goes over the wrap before it ends.
pub fn over_the_wrap(trial: &mut Trial) -> Option<Meant> {
    let at = trial.any_filled()?;
    let tier = trial.tier(at);
    let full = trial.full(tier);
    let last_gap = full.iter().rposition(|full| !full)?;
    let entries = trial.model.tiers[tier].iter();
    let entries = entries.filter(|placed| trial.start(placed) > last_gap);
    let slots: Vec<usize> = entries.map(|placed| placed.slot).collect();
    if slots.is_empty() {
        return None;
    }
    let slot = *trial.rng.pick(&slots);
    let twins = trial.copied(at, slot, at)?;
    Some(trial.refused(&twins))
}

pub fn in_chain(trial: &mut Trial) -> Option<Meant> {
    let at = trial.any_filled()?;
    let slot = trial.any_slot(trial.tier(at));
    let other = trial.other_tier(at)?;
    let twins = trial.copied(at, slot, other)?;
    Some(trial.refused(&twins))
}

/// Two slots with one number: they share the entry.
pub fn one_entry(trial: &mut Trial) -> Option<Meant> {
    let at = trial.any_filled()?;
    let tier = trial.tier(at);
    let slot = trial.any_slot(tier);
    let [one, other] = trial.copied(at, slot, at)?.slots;
    let mut twin = trial.placed(tier, one).clone();
    twin.slot = other;
    *trial.placed_mut(tier, other) = twin;
    Some(Meant::new(6, vec![ONE_ENTRY.to_string()]))
}

pub fn three_times(trial: &mut Trial) -> Option<Meant> {
    let at = trial.any_filled()?;
    let slot = trial.any_slot(trial.tier(at));
    let second = trial.other_tier(at)?;
    let third = trial.other_tier(at)?;
    trial.copied(at, slot, second)?;
    trial.copied(at, slot, third)?;
    let mut events = Vec::new();
    if second != third {
        events.push(THREE_TIMES.to_string());
    }
    Some(Meant::new(6, events))
}

/// The key of a slot once more, in a certain tier.
pub fn of_slot(trial: &mut Trial, at: At, slot: usize, other: At) -> Option<Meant> {
    let twins = trial.copied(at, slot, other)?;
    Some(trial.refused(&twins))
}

impl Trial<'_> {
    /// Another tier of the chain: often the next to it, or the end that is
    /// farther.
    pub fn other_tier(&mut self, at: At) -> Option<At> {
        let tiers = self.model.chains[at.segment].len();
        if tiers == 1 {
            return None;
        }
        let order = match self.rng.below(10) {
            0..2 if at.order > 0 => at.order - 1,
            2..4 if at.order + 1 < tiers => at.order + 1,
            4..7 if 2 * at.order < tiers => tiers - 1,
            4..7 => 0,
            _ => (at.order + self.rng.between(1, tiers - 1)) % tiers,
        };
        Some(At { order, ..at }).filter(|other| *other != at)
    }

    /// Gives the key of a slot a second one in a tier. In one tier the two may
    /// change places.
    fn copied(&mut self, at: At, slot: usize, other: At) -> Option<Twins> {
        let tier = self.tier(at);
        let draft = self.copy_of(tier, slot);
        let same_record = draft.bytes == self.placed(tier, slot).bytes;
        let start = self.model.plan.start(draft.lookup_key);
        let to = self.tier(other);
        let kept = (to == tier).then_some(slot);
        let added = self.add(to, draft, kept)?;
        let mut newer_first = other.order < at.order;
        if to == tier && self.rng.percent(50) {
            let new = self.model.tiers[tier].len() - 1;
            self.placed_mut(tier, slot).slot = added;
            self.model.tiers[tier][new].slot = slot;
            newer_first = true;
        }
        let (at, slots) = match other.order < at.order {
            true => ([other, at], [added, slot]),
            false => ([at, other], [slot, added]),
        };
        Some(Twins {
            at,
            slots,
            start,
            same_record,
            newer_first,
        })
    }

    /// An entry with the key of a slot, and its record or another.
    fn copy_of(&mut self, tier: usize, slot: usize) -> Draft {
        let length = self.rng.below(4);
        let value = self.rng.bytes(length);
        let same = self.rng.percent(50);
        let placed = self.placed(tier, slot);
        let plan = &self.model.plan;
        let fits = plan.offered_number(placed.key.len(), Some(value.len())) == 0;
        match same || !fits {
            true => Draft {
                lookup_key: placed.slot_value & plan.all_ones(),
                chunks: placed.chunks,
                key: placed.key.clone(),
                bytes: placed.bytes.clone(),
            },
            false => self.model.draft(&placed.key, &value),
        }
    }

    fn refused(&self, twins: &Twins) -> Meant {
        let [one, other] = twins.at;
        let mut events = seen::refused(self, one.segment);
        events.extend(match one == other {
            true => self.of_tier(twins),
            false => self.of_chain(twins),
        });
        let last = self.model.plan.slots - 1;
        let tiers = self.model.chains[one.segment].len();
        let slots = [
            twins.slots.contains(&0),
            twins.slots.contains(&last),
            twins.slots[1] == last && other.order + 1 == tiers,
            twins.slots[0] == twins.slots[1],
        ];
        events.extend(came(SLOTS, slots, of_slots));
        Meant::new(6, events)
    }

    /// Both are met by one search, the first before the second.
    fn of_tier(&self, twins: &Twins) -> Vec<String> {
        let slots = self.model.plan.slots;
        let [one, other] = twins.slots;
        let steps = (other + slots - one) % slots;
        let places = [
            steps == 1,
            steps > 1,
            other < one,
            one < twins.start && other < twins.start,
        ];
        let newest = [twins.newer_first, !twins.newer_first, false, false];
        let mut events = came(IN_TIER, places, |place| twice(place, twins.same_record));
        events.extend(came(NEWER, newest, newer));
        events
    }

    fn of_chain(&self, twins: &Twins) -> Vec<String> {
        let [one, other] = twins.at;
        let chain = &self.model.chains[one.segment];
        let mut between = chain[one.order + 1..other.order].iter();
        let apart = other.order - one.order;
        let places = [
            apart == 1,
            apart > 1,
            apart > 1 && apart + 1 == chain.len(),
            between.any(|&tier| self.model.tiers[tier].is_empty()),
        ];
        let newest = [false, false, twins.newer_first, !twins.newer_first];
        let mut events = came(IN_CHAIN, places, |place| twice(place, twins.same_record));
        events.extend(came(NEWER, newest, newer));
        events
    }
}
