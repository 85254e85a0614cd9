//! Bits and counters: number 7; and what no rule names.

use super::Scene;
use super::Verdict::{self, Is};
use crate::render::{get, put};

pub fn chunk_bit(scene: &mut Scene) -> Option<Verdict> {
    let plan = &scene.model.plan;
    let tier = scene.rng.between(1, plan.tiers());
    let chunk = scene.rng.below(plan.chunks);
    *scene.image.get_mut(plan.list(tier) + chunk / 8)? ^= 1 << (chunk % 8);
    Some(Is(7))
}

pub fn bit_behind(scene: &mut Scene) -> Option<Verdict> {
    let plan = &scene.model.plan;
    let tier = scene.rng.between(1, plan.tiers());
    if plan.chunks == 8 * plan.list_size {
        return None;
    }
    let bit = scene.rng.between(plan.chunks, 8 * plan.list_size - 1);
    *scene.image.get_mut(plan.list(tier) + bit / 8)? ^= 1 << (bit % 8);
    Some(Is(0))
}

pub fn free_tier_slot(scene: &mut Scene) -> Option<Verdict> {
    let plan = &scene.model.plan;
    if scene.model.free.is_empty() {
        return None;
    }
    let tier = *scene.rng.pick(&scene.model.free);
    let slot = scene.rng.below(plan.slots);
    scene.flip(plan.slot(tier, slot), plan.slot_size);
    Some(Is(7))
}

pub fn entry_count(scene: &mut Scene) -> Option<Verdict> {
    let tier = scene.chained_tier();
    let (at, width) = scene.model.plan.entry_count_field(tier);
    scene.change(at, width);
    Some(Is(7))
}

pub fn low_mark_lags(scene: &mut Scene) -> Option<Verdict> {
    let tier = scene.chained_filled(false)?;
    lower_mark(scene, tier)?;
    Some(Is(0))
}

pub fn full_mark_lags(scene: &mut Scene) -> Option<Verdict> {
    let tier = scene.chained_filled(true)?;
    lower_mark(scene, tier)?;
    Some(Is(7))
}

/// None where another damage has made the mark too high: this would undo it.
fn lower_mark(scene: &mut Scene, tier: usize) -> Option<()> {
    let lowest = scene.model.lowest_clear(tier);
    let (at, width) = scene.model.plan.lowest_free_field(tier);
    if lowest == 0 || get(scene.image, at, width) > lowest as u64 {
        return None;
    }
    let low_mark = scene.rng.below(lowest) as u64;
    put(scene.image, at, width, low_mark);
    Some(())
}

/// By one or a few, or in one of the field's high bytes.
pub fn low_mark_high(scene: &mut Scene) -> Option<Verdict> {
    let tier = scene.chained_tier();
    let lowest = scene.model.lowest_clear(tier) as u64;
    let (at, width) = scene.model.plan.lowest_free_field(tier);
    let more = match scene.rng.percent(50) {
        true => scene.rng.between(1, 3) as u64,
        false => 1 << (8 * scene.rng.between(2, width - 1)),
    };
    put(scene.image, at, width, lowest + more);
    Some(Is(7))
}

pub fn dead_field(scene: &mut Scene) -> Option<Verdict> {
    let tier = scene.rng.between(1, scene.model.plan.segments);
    let (at, width) = *scene.rng.pick(&[(0, 8), (16, 8), (32, 4)]);
    scene.change(scene.model.plan.counters(tier) + at, width);
    Some(Is(0))
}

pub fn unnamed_byte(scene: &mut Scene) -> Option<Verdict> {
    let plan = &scene.model.plan;
    let tier = scene.rng.between(1, plan.tiers());
    let segment = scene.rng.below(plan.segments);
    let (at, width) = match scene.rng.below(6) {
        0 => (plan.global_state, 8),
        1 => (plan.header(segment), 8),
        2 => (plan.header(segment) + 24, plan.header_size - 24),
        3 => (plan.counters(tier) + 36, 28),
        4 => (
            plan.global_state + 33,
            plan.headers - plan.global_state - 33,
        ),
        _ => (plan.store_size(), plan.bytes_after),
    };
    if width == 0 || at + width > scene.image.len() {
        return None;
    }
    scene.flip(at, width);
    Some(Is(0))
}
