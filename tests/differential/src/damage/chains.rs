//! Links, standings and the used count: number 5.

use super::Scene;
use super::Verdict::{self, Is};
use crate::render::{get, put};

pub fn main_standing(scene: &mut Scene) -> Option<Verdict> {
    let tier = scene.rng.between(1, scene.model.plan.segments);
    standing(scene, tier)
}

pub fn extra_standing(scene: &mut Scene) -> Option<Verdict> {
    let tier = scene.extra_chained()?;
    standing(scene, tier)
}

fn standing(scene: &mut Scene, tier: usize) -> Option<Verdict> {
    let counters = scene.model.plan.counters(tier);
    let (at, width) = *scene.rng.pick(&[(8, 8), (24, 4), (28, 4)]);
    scene.change(counters + at, width);
    Some(Is(5))
}

pub fn link(scene: &mut Scene) -> Option<Verdict> {
    let (at, width) = any_link(scene);
    let before = get(scene.image, at, width);
    let target = scene.rng.between(0, scene.model.plan.tiers() + 1) as u64;
    if target == before {
        return None;
    }
    put(scene.image, at, width, target);
    Some(Is(5))
}

pub fn link_high_byte(scene: &mut Scene) -> Option<Verdict> {
    let (at, width) = any_link(scene);
    let from = scene.rng.between(2, width - 1);
    scene.flip(at + from, width - from);
    Some(Is(5))
}

/// A next of any tier that has one, or the first free tier.
fn any_link(scene: &mut Scene) -> (usize, usize) {
    match scene.rng.percent(25) {
        true => (scene.state() + 11, 5),
        false => {
            let tier = scene.rng.between(1, scene.model.plan.tiers());
            scene.model.plan.next_field(tier)
        }
    }
}

pub fn used_count(scene: &mut Scene) -> Option<Verdict> {
    scene.change(scene.state() + 16, 5);
    Some(Is(5))
}

/// The last free tier drops out, and a chain's last tier takes its place:
/// every count stays right.
pub fn shared_tail(scene: &mut Scene) -> Option<Verdict> {
    let (model, plan) = (scene.model, &scene.model.plan);
    let mut tails: Vec<usize> = model
        .chains
        .iter()
        .map(|chain| chain[chain.len() - 1])
        .collect();
    tails.retain(|&tier| !plan.is_main(tier));
    if tails.is_empty() || model.free.is_empty() {
        return None;
    }
    let tail = *scene.rng.pick(&tails) as u64;
    let (at, width) = match model.free.len() {
        1 => (plan.global_state + 11, 5),
        count => plan.next_field(model.free[count - 2]),
    };
    put(scene.image, at, width, tail);
    Some(Is(5))
}
