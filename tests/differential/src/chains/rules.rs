//! The rules that full chains are about, as document 01 says them, over a
//! model: an empty slot in each tier, no gap on the way to a slot, no key
//! twice in a chain.

use std::collections::HashSet;

use crate::model::{Model, Placed};
use crate::plan::Plan;

/// 6 if one of the rules is broken.
pub fn number(model: &Model) -> u32 {
    let tiers = model.chained_tiers();
    let in_place = |&tier: &usize| {
        let full = full_slots(&model.plan, &model.tiers[tier]);
        full.contains(&false) && unreached(&model.plan, &model.tiers[tier]).is_none()
    };
    match tiers.iter().all(in_place) && keys_once(model) {
        true => 0,
        false => 6,
    }
}

pub fn full_slots(plan: &Plan, tier: &[Placed]) -> Vec<bool> {
    let mut full = vec![false; plan.slots];
    for placed in tier {
        full[placed.slot] = true;
    }
    full
}

/// A slot with an empty one from its start up to itself, wrapping.
pub fn unreached(plan: &Plan, tier: &[Placed]) -> Option<usize> {
    let mut gaps_before = vec![0];
    for full in full_slots(plan, tier) {
        let gaps = gaps_before[gaps_before.len() - 1];
        gaps_before.push(gaps + usize::from(!full));
    }
    let gaps = |from: usize, to: usize| gaps_before[to] - gaps_before[from];
    let has_gap = |placed: &&Placed| {
        let start = plan.start(placed.slot_value & plan.all_ones());
        let end = placed.slot + 1;
        match start < end {
            true => gaps(start, end) > 0,
            false => gaps(start, plan.slots) + gaps(0, end) > 0,
        }
    };
    tier.iter().find(has_gap).map(|placed| placed.slot)
}

fn keys_once(model: &Model) -> bool {
    let mut keys = HashSet::new();
    let mut entries = model
        .chains
        .iter()
        .flatten()
        .flat_map(|&tier| &model.tiers[tier]);
    entries.all(|placed| keys.insert(&placed.key))
}

/// Entries, marked chunks, chained and free tiers of an accepted model.
pub fn counts(model: &Model) -> [u64; 4] {
    let tiers = model.chained_tiers();
    let entries = tiers.iter().map(|&tier| model.tiers[tier].len());
    let chunks = tiers.iter().flat_map(|&tier| &model.tiers[tier]);
    let chunks = chunks.map(|placed| placed.chunks);
    [entries.sum(), chunks.sum(), tiers.len(), model.free.len()].map(|count| count as u64)
}
