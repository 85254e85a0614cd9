//! Entries that break a rule, in good slots.

use super::{any_chained, new_key};
use crate::model::{Draft, Model, length_bytes};
use crate::rng::Rng;

fn too_long(rng: &mut Rng, model: &mut Model, key: Vec<u8>, value: Vec<u8>) -> Option<u32> {
    let segment = model.plan.parts(&key).0;
    let tier = *rng.pick(&model.chains[segment]);
    let draft = model.draft(&key, &value);
    model.place(rng, tier, draft, 1)?;
    Some(6)
}

pub fn long_key(rng: &mut Rng, model: &mut Model) -> Option<u32> {
    let key = rng.bytes(1025);
    too_long(rng, model, key, Vec::new())
}

pub fn long_value(rng: &mut Rng, model: &mut Model) -> Option<u32> {
    let (segment, _) = any_chained(rng, model);
    let key = new_key(rng, model, segment)?;
    let value = rng.bytes(65_536);
    too_long(rng, model, key, value)
}

pub fn too_many_chunks(rng: &mut Rng, model: &mut Model) -> Option<u32> {
    let (segment, _) = any_chained(rng, model);
    let key = new_key(rng, model, segment)?;
    let longest = model
        .plan
        .longest_value(key.len(), model.plan.most_chunks)?;
    let value = rng.bytes((longest + 1).min(65_535));
    if model.plan.chunks_of(key.len(), value.len()) <= model.plan.most_chunks {
        return None;
    }
    too_long(rng, model, key, value)
}

pub fn past_the_chunks(rng: &mut Rng, model: &mut Model) -> Option<u32> {
    let plan = model.plan.clone();
    let (segment, tier) = any_chained(rng, model);
    let key = new_key(rng, model, segment)?;
    let chunks = rng.between(1, plan.most_chunks);
    let value = rng.bytes(plan.longest_value(key.len(), chunks)?.min(65_535));
    let draft = model.draft(&key, &value);
    let clear = model
        .marks(tier)
        .iter()
        .rev()
        .take_while(|mark| !**mark)
        .count();
    let inside = rng.between(1, plan.chunks);
    if draft.chunks < 2 || inside >= draft.chunks || inside > clear {
        return None;
    }
    if model.tiers[tier].len() + 1 >= plan.slots {
        return None;
    }
    let slot = model.empty_slot(tier, plan.start(draft.lookup_key));
    model.place_at(tier, slot, plan.chunks - inside, draft)?;
    Some(6)
}

pub fn empty_key(rng: &mut Rng, model: &mut Model) -> Option<u32> {
    too_long(rng, model, Vec::new(), Vec::new())
}

/// A length with one needless byte, or two.
fn stretched(rng: &mut Rng, number: usize) -> Vec<u8> {
    let mut bytes = length_bytes(number);
    for _ in 0..rng.between(1, 2) {
        let last = bytes.len() - 1;
        bytes[last] |= 0x80;
        bytes.push(0);
    }
    bytes
}

fn place_bytes(rng: &mut Rng, model: &mut Model, key: Vec<u8>, bytes: Vec<u8>) -> Option<u32> {
    let (segment, lookup_key) = model.plan.parts(&key);
    let chunks = bytes.len().div_ceil(model.plan.chunk_size);
    let tier = *rng.pick(&model.chains[segment]);
    if chunks > model.plan.most_chunks {
        return None;
    }
    model.place(
        rng,
        tier,
        Draft {
            lookup_key,
            chunks,
            key,
            bytes,
        },
        1,
    )?;
    Some(6)
}

pub fn long_key_length(rng: &mut Rng, model: &mut Model) -> Option<u32> {
    let (segment, _) = any_chained(rng, model);
    let key = new_key(rng, model, segment)?;
    let bytes = [&stretched(rng, key.len())[..], &key, &[0]].concat();
    place_bytes(rng, model, key, bytes)
}

pub fn long_value_length(rng: &mut Rng, model: &mut Model) -> Option<u32> {
    let (segment, _) = any_chained(rng, model);
    let key = new_key(rng, model, segment)?;
    let length = rng.below(3);
    let value = rng.bytes(length);
    let length = stretched(rng, value.len());
    let bytes = [&length_bytes(key.len())[..], &key, &length, &value].concat();
    place_bytes(rng, model, key, bytes)
}

pub fn endless_length(rng: &mut Rng, model: &mut Model) -> Option<u32> {
    let (segment, _) = any_chained(rng, model);
    let key = new_key(rng, model, segment)?;
    let length = rng.between(3, 12);
    let ones = vec![0xFF; length];
    let bytes = match rng.percent(50) {
        true => [&length_bytes(key.len())[..], &key, &ones].concat(),
        false => ones,
    };
    place_bytes(rng, model, key, bytes)
}

/// An entry at a chunk that lies in another's value, and may end behind it.
pub fn overlap(rng: &mut Rng, model: &mut Model) -> Option<u32> {
    let plan = model.plan.clone();
    let (segment, tier) = any_chained(rng, model);
    let outer = new_key(rng, model, segment)?;
    let value = vec![
        0;
        plan.longest_value(outer.len(), plan.most_chunks)?
            .min(65_535)
    ];
    let draft = model.draft(&outer, &value);
    let value_start = draft.bytes.len() - value.len();
    let place = model.place(rng, tier, draft, 2)?;
    let outer = model.tiers[tier][place].clone();
    let inner = new_key(rng, model, segment)?;
    let inner = model.draft(&inner, &[]);
    let first_chunk = outer.first_chunk + value_start.div_ceil(plan.chunk_size);
    let (outer_end, end) = (outer.first_chunk + outer.chunks, first_chunk + inner.chunks);
    if first_chunk >= outer_end || end > plan.chunks {
        return None;
    }
    if model.marks(tier)[outer_end.min(end)..end].contains(&true) {
        return None;
    }
    let slot = model.empty_slot(tier, plan.start(inner.lookup_key));
    model.place_at(tier, slot, first_chunk, inner)?;
    Some(7)
}
