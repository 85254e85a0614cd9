//! The slots of a tier on the way, full ones and the empty ones between.

use super::{Scene, Target, set_slot, write};

/// A full slot of the lookup key 0, which no key has: one bit above it, of
/// the chunk or higher.
fn filler(scene: &mut Scene) -> u64 {
    let plan = &scene.model.plan;
    1 << scene.rng.between(plan.key_bits, 8 * plan.slot_size - 1)
}

pub fn high_bits(scene: &mut Scene, target: &Target) -> Option<()> {
    let (tier, placed) = target.entry(scene, true)?;
    let plan = &scene.model.plan;
    let (named, width) = (plan.key_bits + plan.chunk_bits, 8 * plan.slot_size);
    if named == width {
        return None;
    }
    let bit = scene.rng.between(named, width - 1);
    set_slot(scene, tier, placed.slot, placed.slot_value | 1 << bit);
    Some(())
}

/// Fills the empty slots of a tier.
fn fill(scene: &mut Scene, tier: usize) {
    let number = filler(scene);
    for slot in 0..scene.model.plan.slots {
        if !scene.model.is_full(tier, slot) {
            set_slot(scene, tier, slot, number);
        }
    }
}

/// The key may stand in it, before it or behind it.
pub fn full(scene: &mut Scene, target: &Target) -> Option<()> {
    if scene.model.plan.slots > 64 {
        return None;
    }
    let tier = *scene.rng.pick(target.chain(scene));
    fill(scene, tier);
    Some(())
}

/// The slot before the start slot is the last that a walk comes to.
pub fn last_of_full(scene: &mut Scene, target: &Target) -> Option<()> {
    let (tier, placed) = target.entry(scene, true)?;
    let plan = &scene.model.plan;
    if plan.slots > 64 {
        return None;
    }
    let last = (plan.start(target.lookup_key) + plan.slots - 1) % plan.slots;
    let number = filler(scene);
    fill(scene, tier);
    set_slot(scene, tier, placed.slot, number);
    set_slot(scene, tier, last, placed.slot_value);
    Some(())
}

/// Two slots for one entry, and none for the other.
pub fn other_entry(scene: &mut Scene, target: &Target) -> Option<()> {
    let (tier, placed) = target.entry(scene, true)?;
    let others = &scene.model.tiers[tier];
    let other = &others[scene.rng.below(others.len())];
    let number = target.lookup_key | (other.first_chunk as u64) << scene.model.plan.key_bits;
    set_slot(scene, tier, placed.slot, number);
    Some(())
}

/// Its slot is passed over by the walk, if that comes to it.
pub fn broken_other(scene: &mut Scene, target: &Target) -> Option<()> {
    let (tier, placed) = target.entry(scene, false)?;
    write(scene, tier, placed.first_chunk, &[0]);
    Some(())
}

/// The first empty slot names an entry that has one already.
pub fn twice(scene: &mut Scene, target: &Target) -> Option<()> {
    let (tier, placed) = target.entry(scene, true)?;
    let start = scene.model.plan.start(target.lookup_key);
    let slot = scene.model.empty_slot(tier, start);
    set_slot(scene, tier, slot, placed.slot_value);
    Some(())
}
