//! Slots that a search from their start does not reach, and tiers without an
//! empty slot.

use super::events::{EXCHANGED, FULL, STILL_REACHED, UNREACHED, WIDE, full, unreached};
use super::rules;
use super::trial::{At, Meant, Trial, gap_from};
use crate::tally::came;

/// A slot goes to another gap and leaves one behind it.
pub fn moved(trial: &mut Trial) -> Option<Meant> {
    let at = trial.any_filled()?;
    let tier = trial.tier(at);
    let slot = trial.any_slot(tier);
    let mut full = trial.full(tier);
    let next = gap_from(&full, slot)?;
    let mut gap = next;
    if trial.rng.percent(50) {
        full[next] = true;
        gap = gap_from(&full, slot).unwrap_or(next);
    }
    trial.placed_mut(tier, slot).slot = gap;
    let kinds = [
        gap == next,
        gap != next,
        gap < slot,
        false,
        false,
        false,
        false,
    ];
    Some(trial.not_reached(at, kinds))
}

/// A new entry with a gap between its start and its slot.
pub fn behind_a_gap(trial: &mut Trial) -> Option<Meant> {
    let at = trial.any_tier();
    let tier = trial.tier(at);
    let key = trial.new_key(at.segment)?;
    let draft = trial.model.draft(&key, &[]);
    let start = trial.model.plan.start(draft.lookup_key);
    let slot = trial.add(tier, draft, None)?;
    let gap = gap_from(&trial.full(tier), (slot + 1) % trial.model.plan.slots)?;
    trial.placed_mut(tier, slot).slot = gap;
    let at_start = slot == start;
    let kinds = [false, false, false, at_start, !at_start, false, false];
    Some(trial.not_reached(at, kinds))
}

/// An entry is taken out, and the slots behind it stay where they are.
pub fn taken_out(trial: &mut Trial) -> Option<Meant> {
    let at = trial.any_filled()?;
    let tier = trial.tier(at);
    let slot = trial.any_slot(tier);
    trial.take_out(tier, slot);
    let plan = &trial.model.plan;
    match rules::unreached(plan, &trial.model.tiers[tier]) {
        None => Some(Meant::new(0, vec![STILL_REACHED.to_string()])),
        Some(cut) => {
            let over = cut < slot;
            let kinds = [false, false, false, false, false, !over, over];
            Some(trial.not_reached(at, kinds))
        }
    }
}

/// Two full slots change places: one may stand before its start then.
pub fn exchanged(trial: &mut Trial) -> Option<Meant> {
    let at = trial.any_filled()?;
    let tier = trial.tier(at);
    let (one, other) = (trial.any_slot(tier), trial.any_slot(tier));
    if one == other {
        return None;
    }
    let entries = trial.model.tiers[tier].iter_mut();
    entries.for_each(|placed| match placed.slot {
        slot if slot == one => placed.slot = other,
        slot if slot == other => placed.slot = one,
        _ => {}
    });
    let reached = rules::unreached(&trial.model.plan, &trial.model.tiers[tier]).is_none();
    let number = if reached { 0 } else { 6 };
    let event = EXCHANGED[usize::from(!reached)];
    Some(Meant::new(number, vec![event.to_string()]))
}

/// As many new keys as there are empty slots.
pub fn no_gap(trial: &mut Trial) -> Option<Meant> {
    let at = trial.any_tier();
    let tier = trial.tier(at);
    let gaps = trial.model.plan.slots - trial.model.tiers[tier].len();
    if gaps > 64 {
        return None;
    }
    for _ in 0..gaps {
        let key = trial.new_key(at.segment)?;
        let draft = trial.model.draft(&key, &[]);
        let start = trial.model.plan.start(draft.lookup_key);
        let slot = gap_from(&trial.full(tier), start)?;
        let chunk = trial.model.clear_run(trial.rng, tier, draft.chunks)?;
        trial.model.place_at(tier, slot, chunk, draft)?;
    }
    let last = trial.model.chains[at.segment].len() - 1;
    let places = [
        last == 0,
        at.order == 0 && last > 0,
        (1..last).contains(&at.order),
        at.order == last && last > 0,
    ];
    let mut events = came(FULL, places, full);
    events.extend(trial.wide(1));
    Some(Meant::new(6, events))
}

impl Trial<'_> {
    fn not_reached(&self, at: At, kinds: [bool; 7]) -> Meant {
        let mut events = came(UNREACHED, kinds, |kind| unreached(kind, at.order == 0));
        events.extend(self.wide(0));
        Meant::new(6, events)
    }

    /// One of [`WIDE`], in a tier of as many slots as there may be.
    fn wide(&self, which: usize) -> Option<String> {
        let wide = self.model.plan.slots == 4096;
        wide.then(|| WIDE[which].to_string())
    }
}
