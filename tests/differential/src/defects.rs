//! Models made wrong in one rule of slots, entries or chunks, with all else
//! (bits, counts, low marks) following the wrong entries.
//!
//! Each answers the number that the image must get, or None if the model
//! has no room for it.

mod entries;
mod slots;

use crate::draw;
use crate::model::{Draft, Model};
use crate::rng::Rng;

pub type Defect = fn(&mut Rng, &mut Model) -> Option<u32>;

pub const DEFECTS: [(&str, Defect); 17] = [
    ("a tier without an empty slot", slots::full_table),
    ("a key twice in a tier", slots::same_key_in_tier),
    ("a key twice in a chain", slots::same_key_in_chain),
    ("two slots of a key on one entry", slots::same_entry_twice),
    ("a key of another segment", slots::other_segment),
    ("a wrong lookup key", slots::wrong_lookup_key),
    ("a hash part 0 left 0", slots::part_zero_left),
    ("a slot behind an empty one", slots::unreachable_slot),
    ("a key of 1,025 bytes", entries::long_key),
    ("a value of 65,536 bytes", entries::long_value),
    ("one chunk too many", entries::too_many_chunks),
    ("an entry past the last chunk", entries::past_the_chunks),
    ("an empty key", entries::empty_key),
    ("a key length not shortest", entries::long_key_length),
    ("a value length not shortest", entries::long_value_length),
    ("a length that does not end", entries::endless_length),
    ("entries that overlap", entries::overlap),
];

/// A chained tier and its segment.
fn any_chained(rng: &mut Rng, model: &Model) -> (usize, usize) {
    let segment = rng.below(model.plan.segments);
    (segment, *rng.pick(&model.chains[segment]))
}

/// A key for the segment that the model does not have.
fn new_key(rng: &mut Rng, model: &Model, segment: usize) -> Option<Vec<u8>> {
    let key = draw::key_in_segment(rng, &model.plan, segment)?;
    let fits = model.plan.offered_number(key.len(), Some(0)) == 0;
    let is_new = model
        .chained_tiers()
        .iter()
        .all(|&tier| !has_key(model, tier, &key));
    (fits && is_new).then_some(key)
}

fn has_key(model: &Model, tier: usize, key: &[u8]) -> bool {
    model.tiers[tier].iter().any(|placed| placed.key == key)
}

fn new_draft(rng: &mut Rng, model: &Model, segment: usize) -> Option<Draft> {
    let key = new_key(rng, model, segment)?;
    let length = rng.below(4);
    let value = rng.bytes(length);
    let fits = model.plan.offered_number(key.len(), Some(value.len())) == 0;
    Some(model.draft(&key, if fits { &value } else { &[] }))
}

/// A tier with an entry, and that entry's place in the tier's list.
fn any_entry(rng: &mut Rng, model: &Model) -> Option<(usize, usize)> {
    let mut tiers = model.chained_tiers();
    tiers.retain(|&tier| !model.tiers[tier].is_empty());
    if tiers.is_empty() {
        return None;
    }
    let tier = *rng.pick(&tiers);
    Some((tier, rng.below(model.tiers[tier].len())))
}
