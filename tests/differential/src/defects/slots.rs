//! Slots that break a rule, over good entries.

use super::{any_chained, any_entry, has_key, new_draft, new_key};
use crate::draw;
use crate::model::{Draft, Model};
use crate::rng::Rng;

pub fn full_table(rng: &mut Rng, model: &mut Model) -> Option<u32> {
    let (segment, tier) = any_chained(rng, model);
    if model.plan.slots > 64 {
        return None;
    }
    for _ in 0..4 * model.plan.slots {
        if model.tiers[tier].len() == model.plan.slots {
            return Some(6);
        }
        let key = new_key(rng, model, segment)?;
        let draft = model.draft(&key, &[]);
        model.place(rng, tier, draft, 0)?;
    }
    None
}

fn copy_of(rng: &mut Rng, model: &Model, tier: usize, place: usize) -> Draft {
    let key = model.tiers[tier][place].key.clone();
    let length = rng.below(3);
    let value = rng.bytes(length);
    let fits = model.plan.offered_number(key.len(), Some(value.len())) == 0;
    model.draft(&key, if fits { &value } else { &[] })
}

pub fn same_key_in_tier(rng: &mut Rng, model: &mut Model) -> Option<u32> {
    let (tier, place) = any_entry(rng, model)?;
    let draft = copy_of(rng, model, tier, place);
    model.place(rng, tier, draft, 1)?;
    Some(6)
}

pub fn same_key_in_chain(rng: &mut Rng, model: &mut Model) -> Option<u32> {
    let (tier, place) = any_entry(rng, model)?;
    let segment = model.plan.parts(&model.tiers[tier][place].key).0;
    if model.chains[segment].len() == 1 {
        model.grow(segment);
    }
    let mut others = model.chains[segment].clone();
    others.retain(|&other| other != tier);
    if others.is_empty() {
        return None;
    }
    let other = *rng.pick(&others);
    let draft = copy_of(rng, model, tier, place);
    model.place(rng, other, draft, 1)?;
    Some(6)
}

pub fn same_entry_twice(rng: &mut Rng, model: &mut Model) -> Option<u32> {
    let (tier, place) = any_entry(rng, model)?;
    if model.tiers[tier].len() + 1 >= model.plan.slots {
        return None;
    }
    let mut twin = model.tiers[tier][place].clone();
    twin.slot = model.empty_slot(
        tier,
        model.plan.start(twin.slot_value & model.plan.all_ones()),
    );
    model.tiers[tier].push(twin);
    Some(6)
}

pub fn other_segment(rng: &mut Rng, model: &mut Model) -> Option<u32> {
    let (segment, tier) = any_chained(rng, model);
    if model.plan.segments == 1 {
        return None;
    }
    let other = segment ^ (1 << rng.below(model.plan.segments.ilog2() as usize));
    let draft = new_draft(rng, model, other)?;
    model.place(rng, tier, draft, 1)?;
    Some(6)
}

pub fn wrong_lookup_key(rng: &mut Rng, model: &mut Model) -> Option<u32> {
    let (segment, tier) = any_chained(rng, model);
    let mut draft = new_draft(rng, model, segment)?;
    let flipped = draft.lookup_key ^ 1 << rng.below(model.plan.key_bits);
    draft.lookup_key = if flipped == 0 { return None } else { flipped };
    model.place(rng, tier, draft, 1)?;
    Some(6)
}

/// The slot itself is not 0, thanks to its chunk.
pub fn part_zero_left(rng: &mut Rng, model: &mut Model) -> Option<u32> {
    let key = draw::key_of_part_zero(rng, &model.plan)?;
    let segment = model.plan.parts(&key).0;
    let tier = *rng.pick(&model.chains[segment]);
    let is_new = model.chains[segment]
        .iter()
        .all(|&tier| !has_key(model, tier, &key));
    if model.plan.offered_number(key.len(), Some(0)) != 0 || !is_new {
        return None;
    }
    let mut draft = model.draft(&key, &[]);
    draft.lookup_key = 0;
    model.place(rng, tier, draft, 1)?;
    Some(6)
}

pub fn unreachable_slot(rng: &mut Rng, model: &mut Model) -> Option<u32> {
    let (segment, tier) = any_chained(rng, model);
    if model.tiers[tier].len() + 2 >= model.plan.slots {
        return None;
    }
    let draft = new_draft(rng, model, segment)?;
    let first_chunk = model.clear_run(rng, tier, draft.chunks)?;
    let first_empty = model.empty_slot(tier, model.plan.start(draft.lookup_key));
    let next_empty = model.empty_slot(tier, (first_empty + 1) % model.plan.slots);
    model.place_at(tier, next_empty, first_chunk, draft)?;
    Some(6)
}
