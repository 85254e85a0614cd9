//! A counter or a mark of a tier that is wrong: 7, unless 6 applies.

use super::events::{BROKEN, SIDES, alone, before};
use super::trial::{Meant, Trial};
use super::twice;
use crate::model::Model;
use crate::render::{get, put};
use crate::rng::Rng;
use crate::tally::came;

pub struct Broken {
    tier: usize,
    /// One of [`BROKEN`].
    what: usize,
}

impl Broken {
    pub fn apply(&self, rng: &mut Rng, model: &Model, image: &mut [u8]) {
        let plan = &model.plan;
        match self.what {
            0 => {
                let (at, width) = plan.entry_count_field(self.tier);
                let more = *rng.pick(&[1, u32::MAX, 256, 1 << 16]);
                let count = get(image, at, width) as u32;
                put(image, at, width, u64::from(count.wrapping_add(more)));
            }
            1 => {
                let chunk = rng.below(plan.chunks);
                image[plan.list(self.tier) + chunk / 8] ^= 1 << (chunk % 8);
            }
            _ => {
                let (at, width) = plan.lowest_free_field(self.tier);
                let more = rng.between(1, 3);
                put(
                    image,
                    at,
                    width,
                    (model.lowest_clear(self.tier) + more) as u64,
                );
            }
        }
    }
}

pub fn broken(trial: &mut Trial) -> Option<Meant> {
    let at = trial.any_tier();
    let what = trial.rng.below(BROKEN.len());
    let tier = trial.tier(at);
    let event = alone(BROKEN[what], trial.model.plan.is_main(tier));
    let mut meant = Meant::new(7, vec![event]);
    meant.broken = Some(Broken { tier, what });
    Some(meant)
}

/// Beside a key that has two slots, in a tier that comes before both, between
/// them or behind both.
pub fn beside_a_key_twice(trial: &mut Trial) -> Option<Meant> {
    let at = trial.any_filled()?;
    let slot = trial.any_slot(trial.tier(at));
    let other = match trial.rng.percent(60) {
        true => at,
        false => trial.other_tier(at)?,
    };
    let mut meant = twice::of_slot(trial, at, slot, other)?;
    let tiers = trial.model.chained_tiers();
    let place = trial.rng.below(tiers.len());
    let position = |tier: usize| tiers.iter().position(|&other| other == tier);
    let twins = [position(trial.tier(at))?, position(trial.tier(other))?];
    let first = twins[0].min(twins[1]);
    let last = twins[0].max(twins[1]);
    let what = trial.rng.below(BROKEN.len());
    let sides = [
        place < first,
        place == first || place == last,
        first < place && place < last,
        place > last,
    ];
    meant
        .events
        .extend(came(SIDES, sides, |side| before(BROKEN[what], side)));
    let tier = tiers[place];
    meant.broken = Some(Broken { tier, what });
    Some(meant)
}
