//! Slots and entries: number 6, if anything.

use super::Scene;
use super::Verdict::{self, Is, Unknown};
use crate::plan::length_size;
use crate::render::{get, put};

pub fn slot_high_bits(scene: &mut Scene) -> Option<Verdict> {
    let plan = &scene.model.plan;
    let (at, slot) = scene.full_slot()?;
    let named = plan.key_bits + plan.chunk_bits;
    if named == 8 * plan.slot_size {
        return None;
    }
    let bit = scene.rng.between(named, 8 * plan.slot_size - 1);
    put(scene.image, at, plan.slot_size, slot | 1 << bit);
    Some(Is(6))
}

pub fn slot_key_bit(scene: &mut Scene) -> Option<Verdict> {
    let plan = &scene.model.plan;
    let (at, slot) = scene.full_slot()?;
    let flipped = slot ^ 1 << scene.rng.below(plan.key_bits);
    put(scene.image, at, plan.slot_size, flipped);
    Some(if flipped == 0 { Unknown } else { Is(6) })
}

pub fn slot_chunk_past(scene: &mut Scene) -> Option<Verdict> {
    let plan = &scene.model.plan;
    let (at, slot) = scene.full_slot()?;
    let most = (1usize << plan.chunk_bits) - 1;
    if most < plan.chunks {
        return None;
    }
    let chunk = if scene.rng.percent(50) {
        plan.chunks
    } else {
        scene.rng.between(plan.chunks, most)
    };
    let lookup_key = slot & plan.all_ones();
    put(
        scene.image,
        at,
        plan.slot_size,
        lookup_key | (chunk as u64) << plan.key_bits,
    );
    Some(Is(6))
}

pub fn slot_other_chunk(scene: &mut Scene) -> Option<Verdict> {
    let plan = &scene.model.plan;
    let (at, slot) = scene.full_slot()?;
    let chunk = scene.rng.below(plan.chunks) as u64;
    let lookup_key = slot & plan.all_ones();
    put(
        scene.image,
        at,
        plan.slot_size,
        lookup_key | chunk << plan.key_bits,
    );
    Some(Unknown)
}

pub fn slot_emptied(scene: &mut Scene) -> Option<Verdict> {
    let (at, _) = scene.full_slot()?;
    put(scene.image, at, scene.model.plan.slot_size, 0);
    Some(Unknown)
}

/// Full or empty, of one tier or of two.
pub fn slots_swapped(scene: &mut Scene) -> Option<Verdict> {
    let plan = &scene.model.plan;
    let (one, slot) = scene.full_slot()?;
    let tier = scene.chained_tier();
    let other = plan.slot(tier, scene.rng.below(plan.slots));
    let there = get(scene.image, other, plan.slot_size);
    put(scene.image, one, plan.slot_size, there);
    put(scene.image, other, plan.slot_size, slot);
    Some(Unknown)
}

pub fn key_byte(scene: &mut Scene) -> Option<Verdict> {
    let (tier, place) = scene.entry()?;
    let (plan, placed) = (&scene.model.plan, &scene.model.tiers[tier][place]);
    let mut key = placed.key.clone();
    if key.is_empty() {
        return None;
    }
    let byte = scene.rng.below(key.len());
    let after_length = length_size(key.len()) + byte;
    let bit = 1 << scene.rng.below(8);
    key[byte] ^= bit;
    *scene
        .image
        .get_mut(plan.chunk(tier, placed.first_chunk) + after_length)? ^= bit;
    let agrees = plan.parts(&key) == plan.parts(&placed.key);
    Some(if agrees { Unknown } else { Is(6) })
}

pub fn key_length(scene: &mut Scene) -> Option<Verdict> {
    let (tier, place) = scene.entry()?;
    let at = scene
        .model
        .plan
        .chunk(tier, scene.model.tiers[tier][place].first_chunk);
    let byte = *scene.rng.pick(&[0, 0x80, 0xFF, 1, 2, 0x7F]);
    let before = std::mem::replace(scene.image.get_mut(at)?, byte);
    Some(if byte == 0 && before != 0 {
        Is(6)
    } else {
        Unknown
    })
}

pub fn entry_byte(scene: &mut Scene) -> Option<Verdict> {
    let (tier, place) = scene.entry()?;
    let placed = &scene.model.tiers[tier][place];
    let at = scene.model.plan.chunk(tier, placed.first_chunk);
    let byte = scene.rng.below(placed.bytes.len());
    let junk = scene.rng.next() as u8;
    *scene.image.get_mut(at + byte)? = junk;
    Some(Unknown)
}
