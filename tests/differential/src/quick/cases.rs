//! Images for the quick calls: good ones damaged on the way to a key, and any
//! bytes behind a good frame.

use super::calls;
use crate::cases::scene_of;
use crate::compare::{Outcome, Pair};
use crate::damage::walk::{LONG_VALUE, Target};
use crate::damage::{DAMAGES, FRAME_DAMAGES, Scene, WALK_DAMAGES};
use crate::draw;
use crate::plan::Plan;
use crate::render::put;
use crate::rng::Rng;
use crate::settings::Size;
use crate::tally::Tally;

/// Long chains, and many keys of one lookup key.
fn plan_for_walks(rng: &mut Rng) -> (Plan, bool) {
    let size = match rng.below(100) {
        0..50 => Size::Narrow,
        50..75 => Size::Tiny,
        75..97 => Size::Small,
        _ => Size::Roomy,
    };
    let mut plan = Plan::random(rng, size);
    if rng.percent(60) {
        plan.key_bits = rng.between(1, 3.min(plan.key_bits));
    }
    (plan, size == Size::Roomy)
}

/// One to three kinds of damage, one of them on the way to a key.
pub fn walked(rng: &mut Rng, tally: &mut Tally) -> Outcome<()> {
    let (plan, roomy) = plan_for_walks(rng);
    let (plan, keys, model) = scene_of(rng, plan);
    let mut image = model.image(rng);
    let target = Target::random(rng, &model, &keys);
    let mut made = Vec::new();
    for time in 0..rng.between(1, 3) {
        let scene = &mut Scene {
            rng: &mut *rng,
            model: &model,
            image: &mut image,
        };
        if time > 0 && scene.rng.percent(50) {
            let (name, damage) = *scene.rng.pick(&DAMAGES[FRAME_DAMAGES..]);
            made.extend(damage(scene).map(|_| name));
            continue;
        }
        let (name, damage) = match roomy && time == 0 {
            true => LONG_VALUE,
            false => *scene.rng.pick(&WALK_DAMAGES),
        };
        made.extend(damage(scene, &target).map(|_| name));
    }
    for name in &made {
        *tally.faults.entry(name).or_default() += 1;
    }
    let near = target.keys(rng, &model, &keys);
    let mut pair = Pair::new(plan.block(), image, tally);
    let (checked, _) = pair.check()?;
    let result = calls(&plan, &near, &mut pair, checked);
    result.map_err(|difference| format!("{difference} (damage: {made:?})"))
}

/// Any bytes, with as many zeros as a draw says, behind a good frame. Half of
/// them have nexts that are tiers, or nearly.
pub fn framed(rng: &mut Rng, tally: &mut Tally) -> Outcome<()> {
    let size = *rng.pick(&[Size::Narrow, Size::Tiny]);
    let plan = Plan::random(rng, size);
    let mut image = rng.bytes(plan.store_size() + plan.bytes_after);
    let zeros = *rng.pick(&[0, 50, 80, 95]);
    for byte in &mut image {
        if rng.percent(zeros) {
            *byte = 0;
        }
    }
    if rng.percent(50) {
        for tier in 1..=plan.tiers() {
            let (at, width) = plan.next_field(tier);
            put(&mut image, at, width, rng.below(plan.tiers() + 2) as u64);
        }
    }
    let state = plan.global_state;
    put(&mut image, state + 8, 3, plan.bulks as u64);
    put(&mut image, state + 21, 4, plan.headers as u64);
    put(&mut image, state + 25, 8, plan.store_size() as u64);
    let keys = draw::keys_with_pairs(rng, &plan, 8);
    let mut pair = Pair::new(plan.block(), image, tally);
    let (checked, _) = pair.check()?;
    calls(&plan, &keys, &mut pair, checked)
}
