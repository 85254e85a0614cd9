//! Removals, held against the plain map; some make room for a store.

use std::collections::BTreeMap;

use super::History;
use crate::compare::Outcome;
use crate::draw;
use crate::edit::Deed;
use crate::empty_tiers;
use crate::kinds::Kind;
use crate::live;
use crate::oracle::Oracle;

/// The most entries that are removed to send their tier home.
const FEW: usize = 3;

impl History<'_, '_> {
    pub fn remove(&mut self) -> Outcome<()> {
        let any = self.rng.below(self.records.len() + 1);
        let key = match self.records.keys().nth(any) {
            Some(key) if self.rng.percent(70) => key.clone(),
            _ => draw::offered_key(self.rng, &self.plan, self.keys),
        };
        self.remove_of(&key)
    }

    fn remove_of(&mut self, key: &[u8]) -> Outcome<()> {
        let number = self.pair.remove(key)?;
        let refused = self.plan.offered_number(key.len(), None);
        let absent = match self.records.remove(key) {
            Some(_) => 0,
            None => 1,
        };
        let expected = if refused != 0 { refused } else { absent };
        self.expect("removal", number, expected)?;
        match number {
            0 => {
                self.course.removed();
                self.edited(key, Deed::Removed, |links| links.of_removal())?;
                self.lookup_of(key)?;
            }
            1 => self.passed_by(key),
            _ => {}
        }
        Ok(())
    }

    /// Counts where the chain of an absent key has a tier without entries.
    fn passed_by(&mut self, key: &[u8]) {
        let oracle = Oracle {
            plan: &self.plan,
            image: self.pair.image(),
        };
        if !oracle.empty_tiers(self.plan.parts(key).0).is_empty() {
            self.pair.met(empty_tiers::passed_by());
        }
    }

    /// A store that was answered 10, again once removals have sent home a
    /// tier, of its own chain or of another segment's.
    pub fn again_after_removals(&mut self, kind: Kind, key: &[u8], value: &[u8]) -> Outcome<()> {
        let Some(keys) = self.keys_of_a_tier(key) else {
            return Ok(());
        };
        for key in &keys {
            self.remove_of(key)?;
        }
        let number = self.store_of(kind, key, value)?;
        self.expect("a store after a tier went home", number, 0)?;
        let of_another = self.plan.parts(&keys[0]).0 != self.plan.parts(key).0;
        self.pair.met(empty_tiers::full_before(of_another));
        Ok(())
    }

    /// All keys of an extra tier with few entries, none of them the given one.
    fn keys_of_a_tier(&mut self, key: &[u8]) -> Option<Vec<Vec<u8>>> {
        let mut tiers: BTreeMap<usize, Vec<Vec<u8>>> = BTreeMap::new();
        for entry in live::entries(&self.plan, self.pair.image()) {
            tiers.entry(entry.tier).or_default().push(entry.key.into());
        }
        let few = |keys: &[Vec<u8>]| keys.len() <= FEW && keys.iter().all(|other| other != key);
        tiers.retain(|&tier, keys| !self.plan.is_main(tier) && few(keys));
        let any = self.rng.below(tiers.len().max(1));
        tiers.into_values().nth(any)
    }
}
