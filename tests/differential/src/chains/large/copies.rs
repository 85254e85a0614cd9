//! Copies of a large store, aimed at certain tiers.

use crate::chains::events::{RESIDUES, residue};
use crate::chains::near;
use crate::chains::trial::{At, Meant, Trial, gap_from};
use crate::chains::twice;
use crate::model::Placed;

/// A slot of one of two tiers, and the other of them. Its lookup key may have
/// to leave a certain rest.
fn slot_of(trial: &mut Trial, tiers: [At; 2], rest: Option<u64>) -> Option<(At, usize, At)> {
    let [one, other] = tiers;
    let (at, other) = *trial.rng.pick(&[(one, other), (other, one)]);
    let ones = trial.model.plan.all_ones();
    let fits = |lookup_key: u64| rest.is_none_or(|rest| lookup_key % RESIDUES == rest);
    let entries = trial.model.tiers[trial.tier(at)].iter();
    let entries = entries.filter(|placed| fits(placed.slot_value & ones));
    let slots: Vec<usize> = entries.map(|placed| placed.slot).collect();
    let any = trial.rng.below(slots.len().max(1));
    slots.get(any).map(|&slot| (at, slot, other))
}

fn ends(trial: &Trial, segment: usize) -> [At; 2] {
    let last = trial.model.chains[segment].len() - 1;
    [0, last].map(|order| At { segment, order })
}

/// A key twice, in the first and in the last tier.
pub fn in_ends(trial: &mut Trial, segment: usize, rest: Option<u64>) -> Option<Meant> {
    let (at, slot, other) = slot_of(trial, ends(trial, segment), rest)?;
    let mut meant = twice::of_slot(trial, at, slot, other)?;
    let entries = trial.model.chains[segment].iter();
    let entries: usize = entries.map(|&tier| trial.model.tiers[tier].len()).sum();
    if let Some(rest) = rest.filter(|_| entries > 16_384) {
        let key_bits = trial.model.plan.key_bits;
        meant.events.push(residue(rest, key_bits));
    }
    Some(meant)
}

/// A key twice, in two tiers of the first chain.
pub fn in_tiers(trial: &mut Trial, orders: [usize; 2]) -> Option<Meant> {
    let tiers = orders.map(|order| At { segment: 0, order });
    let (at, slot, other) = slot_of(trial, tiers, None)?;
    twice::of_slot(trial, at, slot, other)
}

/// A key twice, in slots of one number in two tiers of the first chain.
pub fn in_one_slot(trial: &mut Trial, orders: [usize; 2]) -> Option<Meant> {
    let [at, other] = orders.map(|order| At { segment: 0, order });
    let full = trial.full(trial.tier(other));
    let entries = trial.model.tiers[trial.tier(at)].iter();
    let ends_here = |placed: &&Placed| gap_from(&full, trial.start(placed)) == Some(placed.slot);
    let slots: Vec<usize> = entries
        .filter(ends_here)
        .map(|placed| placed.slot)
        .collect();
    let any = trial.rng.below(slots.len().max(1));
    twice::of_slot(trial, at, *slots.get(any)?, other)
}

/// Two keys of one lookup key in the first and in the last tier.
pub fn like_in_ends(trial: &mut Trial) -> Option<Meant> {
    let (at, slot, other) = slot_of(trial, ends(trial, 0), None)?;
    let form = *trial.rng.pick(&near::MADE);
    let key = trial.placed(trial.tier(at), slot).key.clone();
    let like = trial.like(&key, form)?;
    near::beside(trial, (at, slot), other, &like, form)
}

/// A key twice in tiers that have no room for one entry more.
pub fn in_a_full_tier(trial: &mut Trial) -> Option<Meant> {
    let most = trial.model.plan.slots - 1;
    let mut orders: Vec<usize> = (0..trial.model.chains[0].len()).collect();
    orders.retain(|&order| trial.model.tiers[trial.model.chains[0][order]].len() == most);
    let any = |_| At {
        segment: 0,
        order: *trial.rng.pick(&orders),
    };
    let [at, other] = [0, 1].map(any);
    let slot = trial.any_slot(trial.tier(at));
    twice::of_slot(trial, at, slot, other)
}
