//! Nexts on the way, and tiers of other chains at its end.

use super::{Scene, Target, set_slot, write};
use crate::model::entry_bytes;
use crate::render::{get, put};

fn set_next(scene: &mut Scene, tier: usize, next: u64) -> Option<()> {
    let (at, width) = scene.model.plan.next_field(tier);
    put(scene.image, at, width, next);
    Some(())
}

/// Any tier of the chain.
fn any(scene: &mut Scene, target: &Target) -> usize {
    *scene.rng.pick(target.chain(scene))
}

fn last(scene: &Scene, target: &Target) -> usize {
    let chain = target.chain(scene);
    chain[chain.len() - 1]
}

pub fn main(scene: &mut Scene, target: &Target) -> Option<()> {
    let tier = any(scene, target);
    let next = scene.rng.between(1, scene.model.plan.segments);
    set_next(scene, tier, next as u64)
}

pub fn past(scene: &mut Scene, target: &Target) -> Option<()> {
    let tier = any(scene, target);
    let further = scene.rng.below(2) * scene.rng.below(1 << 31);
    set_next(scene, tier, (scene.model.plan.tiers() + 1 + further) as u64)
}

pub fn high_byte(scene: &mut Scene, target: &Target) -> Option<()> {
    let tier = any(scene, target);
    let (at, width) = scene.model.plan.next_field(tier);
    let bit = scene.rng.between(16, 63);
    let next = get(scene.image, at, width) ^ 1 << bit;
    set_next(scene, tier, next)
}

pub fn itself(scene: &mut Scene, target: &Target) -> Option<()> {
    let extra = &target.chain(scene)[1..];
    if extra.is_empty() {
        return None;
    }
    let tier = *scene.rng.pick(extra);
    set_next(scene, tier, tier as u64)
}

/// The last tier leads back to an earlier one, or on to two free tiers that
/// lead to one another.
pub fn circle(scene: &mut Scene, target: &Target) -> Option<()> {
    let (chain, last) = (target.chain(scene), last(scene, target));
    if chain.len() > 2 {
        let earlier = *scene.rng.pick(&chain[1..chain.len() - 1]);
        return set_next(scene, last, earlier as u64);
    }
    let &[one, other, ..] = &scene.model.free[..] else {
        return None;
    };
    set_next(scene, last, one as u64)?;
    set_next(scene, one, other as u64)?;
    set_next(scene, other, one as u64)
}

fn free_tier(scene: &mut Scene) -> Option<usize> {
    let free = &scene.model.free;
    (!free.is_empty()).then(|| *scene.rng.pick(free))
}

/// An extra tier of another segment's chain.
fn other_tier(scene: &mut Scene, target: &Target) -> Option<usize> {
    let chains = scene.model.chains.iter().enumerate();
    let others = chains.filter(|(segment, _)| *segment != target.segment);
    let tiers: Vec<usize> = others.flat_map(|(_, chain)| chain[1..].to_vec()).collect();
    (!tiers.is_empty()).then(|| *scene.rng.pick(&tiers))
}

pub fn free(scene: &mut Scene, target: &Target) -> Option<()> {
    let (tier, free) = (last(scene, target), free_tier(scene)?);
    set_next(scene, tier, free as u64)
}

pub fn other_segment(scene: &mut Scene, target: &Target) -> Option<()> {
    let (tier, other) = (last(scene, target), other_tier(scene, target)?);
    set_next(scene, tier, other as u64)
}

/// The key in a slot and a chunk of another tier, to which the chain leads.
fn key_in(scene: &mut Scene, target: &Target, tier: usize) -> Option<()> {
    let plan = &scene.model.plan;
    let slot = scene.model.empty_slot(tier, plan.start(target.lookup_key));
    let chunk = scene.rng.below(plan.chunks);
    let number = target.lookup_key | (chunk as u64) << plan.key_bits;
    write(scene, tier, chunk, &entry_bytes(&target.key, &[9, 8, 7, 6]));
    set_slot(scene, tier, slot, number);
    set_next(scene, last(scene, target), tier as u64)
}

pub fn key_in_free(scene: &mut Scene, target: &Target) -> Option<()> {
    let tier = free_tier(scene)?;
    key_in(scene, target, tier)
}

pub fn key_in_other(scene: &mut Scene, target: &Target) -> Option<()> {
    let tier = other_tier(scene, target)?;
    key_in(scene, target, tier)
}
