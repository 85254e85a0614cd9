//! Lowest free chunk fields: drawn so that some lag behind the lowest clear
//! chunk, and looked at after each edit, tier by tier.

use crate::compare::Outcome;
use crate::edit::{Deed, Edit};
use crate::rng::Rng;

/// What edits must have come upon, each in a main and in an extra tier.
const EVENTS: [&str; 7] = [
    "made exact by a removal",
    "made exact by a store",
    "made exact by a tight replacement in its own chunks",
    "made exact though the lowest clear chunk stayed",
    "made the number of chunks by a store",
    "left as it was by an edit in another tier of its chain",
    "left as it was by a replacement on the spot in its tier",
];
const KINDS: [&str; 2] = ["a main tier", "an extra tier"];

fn named(kind: &str, event: &str) -> String {
    format!("a lagging low mark of {kind} {event}")
}

pub fn planned() -> Vec<String> {
    let kinds = KINDS.into_iter();
    kinds
        .flat_map(|kind| EVENTS.map(|event| named(kind, event)))
        .collect()
}

/// The lowest clear chunk, or a lower one. A full tier has its number of
/// chunks.
pub fn drawn(rng: &mut Rng, lowest: usize, chunks: usize) -> usize {
    if lowest < chunks && rng.percent(40) {
        return rng.below(lowest + 1);
    }
    lowest
}

impl Edit<'_> {
    /// The exact number stands where chunks were taken or freed, the old one
    /// in every other tier. On the spot none is. Answers what came up.
    pub fn marks(&self) -> Outcome<Vec<String>> {
        let mut met = Vec::new();
        let chain = self.chain();
        for tier in 1..=self.plan.tiers() {
            let touched = self.bits_changed(tier) || self.deed == Deed::Placed(tier);
            let expected = match touched {
                true => self.left().lowest_clear(tier) as u64,
                false => self.got().low_mark(tier),
            };
            let field = self.left().low_mark(tier);
            if field != expected {
                return Err(format!(
                    "low mark of tier {tier}: {field}, meant was {expected}"
                ));
            }
            if chain.contains(&tier) {
                met.extend(self.events(tier, touched));
            }
        }
        Ok(met)
    }

    /// Of a tier in the chain of the edit's key.
    fn events(&self, tier: usize, touched: bool) -> Vec<String> {
        let exact = self.got().lowest_clear(tier);
        if self.got().low_mark(tier) == exact as u64 {
            return Vec::new();
        }
        let exact_after = self.left().lowest_clear(tier);
        let stores = matches!(self.deed, Deed::Placed(_));
        let stays = matches!(self.deed, Deed::OnTheSpot(_));
        let came = [
            touched && self.deed == Deed::Removed,
            touched && stores,
            touched && !self.bits_changed(tier),
            touched && exact_after == exact,
            touched && stores && exact_after == self.plan.chunks,
            !touched && !stays,
            self.deed == Deed::OnTheSpot(tier),
        ];
        let kind = KINDS[usize::from(!self.plan.is_main(tier))];
        let events = EVENTS.into_iter().zip(came).filter(|(_, came)| *came);
        events.map(|(event, _)| named(kind, event)).collect()
    }

    fn bits_changed(&self, tier: usize) -> bool {
        let (before, after) = (self.got(), self.left());
        let mut chunks = 0..self.plan.chunks;
        chunks.any(|chunk| before.mark(tier, chunk) != after.mark(tier, chunk))
    }
}
