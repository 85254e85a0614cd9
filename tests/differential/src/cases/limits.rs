//! Images at the limits of tiers and bytes, and a chain with long orders.

use super::{history_on, scene_of};
use crate::bulks;
use crate::calls::all_calls;
use crate::compare::{Outcome, Pair};
use crate::damage::Verdict;
use crate::draw;
use crate::kinds::Kind;
use crate::model::Model;
use crate::plan::{MOST_BYTES, MOST_TIERS, Plan};
use crate::quick;
use crate::rng::Rng;
use crate::settings::Size;
use crate::tally::Tally;

/// One chain of more than 257 tiers, so that an order of two bytes falls to
/// one byte.
fn long_chain(rng: &mut Rng, tally: &mut Tally) -> Outcome<()> {
    let mut plan = Plan::random(rng, Size::Narrow);
    plan.segments = 1;
    plan.bulks = rng.between(259, 270).div_ceil(plan.bulk_tiers);
    if plan.store_size() + plan.bytes_after > 200 << 10 {
        return Ok(());
    }
    let keys = draw::keys(rng, &plan, plan.tiers());
    let model = Model::long_chain(rng, &plan, &keys);
    history_on(rng, tally, plan, &keys, model, 0)
}

/// As many tiers as an image may have, 1,024 mostly, or a bulk less, with
/// room for more; or a bulk too many.
pub fn most_tiers(rng: &mut Rng, tally: &mut Tally) -> Outcome<()> {
    if rng.percent(20) {
        return long_chain(rng, tally);
    }
    let mut plan = Plan::random(rng, Size::Tiny);
    plan.segments = 1 << rng.between(0, 8);
    plan.bulk_tiers = match rng.percent(70) {
        true => 1 << rng.between(0, 6.min(plan.segments.ilog2() as usize)),
        false => rng.between(1, 64),
    };
    plan.bulk_size = plan.bulk_offset + plan.bulk_tiers * plan.tier_size;
    plan.bulks = (MOST_TIERS - plan.segments) / plan.bulk_tiers;
    plan.bytes_after = rng.below(3) * plan.bulk_size;
    if plan.store_size() + plan.bytes_after > 1 << 20 {
        return Ok(());
    }
    if rng.percent(70) {
        plan.bulks -= rng.below(2);
        let (plan, keys, model) = scene_of(rng, plan);
        return history_on(rng, tally, plan, &keys, model, 30);
    }
    plan.bulks += 1;
    let (plan, keys, model) = scene_of(rng, plan);
    let image = model.image(rng);
    let mut pair = Pair::new(plan.block(), image, tally);
    all_calls(rng, &plan, &keys, &mut pair, Verdict::Is(4))
}

/// An image of the greatest length, or a byte more. One bulk more may end
/// with it, or a byte behind it.
pub fn longest_image(rng: &mut Rng, tally: &mut Tally) -> Outcome<()> {
    let mut plan = Plan::random(rng, Size::Tiny);
    let too_long = rng.percent(50);
    if rng.percent(50) {
        plan.bulks = 0;
        plan.bulk_size = MOST_BYTES - plan.store_size() + rng.below(2);
    }
    let (mut plan, _, model) = scene_of(rng, plan);
    let mut image = model.image(rng);
    image.resize(MOST_BYTES + usize::from(too_long), 0xEE);
    plan.bytes_after = image.len() - plan.store_size();
    let kind = *rng.pick(&[Kind::OnTheSpot, Kind::Tight]);
    let mut pair = Pair::new(plan.block(), image, tally);
    let (number, _) = pair.check()?;
    let expected = if too_long { 4 } else { 0 };
    if number != expected {
        return Err(format!(
            "check of a long image: {number}, meant was {expected}"
        ));
    }
    quick::calls(&plan, &[vec![1]], &mut pair, number)?;
    pair.store(kind, &[1], &[2])?;
    match too_long {
        true => pair.grow(),
        false => bulks::add(&mut plan, &mut pair),
    }
    .map(|_| ())
}
