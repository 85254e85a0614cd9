//! The frame: number 4.

use super::Scene;
use super::Verdict::{self, Is};
use crate::render::put;

pub fn store_size(scene: &mut Scene) -> Option<Verdict> {
    scene.change(scene.state() + 25, 8);
    Some(Is(4))
}

pub fn headers_offset(scene: &mut Scene) -> Option<Verdict> {
    scene.change(scene.state() + 21, 4);
    Some(Is(4))
}

/// With the store size that follows, so that only the one rule is broken.
pub fn headers_too_low(scene: &mut Scene) -> Option<Verdict> {
    let plan = &scene.model.plan;
    let low = match scene.rng.percent(50) {
        true => plan.global_state + 32,
        false => scene.rng.below(plan.global_state + 33),
    };
    let store_size = plan.store_size() - plan.headers + low;
    put(scene.image, plan.global_state + 21, 4, low as u64);
    put(scene.image, plan.global_state + 25, 8, store_size as u64);
    Some(Is(4))
}

pub fn bulk_count(scene: &mut Scene) -> Option<Verdict> {
    scene.change(scene.state() + 8, 3);
    Some(Is(4))
}

pub fn image_cut(scene: &mut Scene) -> Option<Verdict> {
    let store_size = scene.model.plan.store_size();
    let length = match scene.rng.below(5) {
        0 => store_size - 1,
        1 => scene.state() + 33,
        2 => scene.state() + 32,
        _ => scene.rng.below(store_size),
    };
    scene.image.truncate(length);
    Some(Is(4))
}
