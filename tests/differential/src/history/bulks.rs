//! One bulk more in the midst of a history: the map is as it was.

use super::History;
use crate::bulks;
use crate::compare::Outcome;
use crate::kinds::Kind;
use crate::oracle::Oracle;

impl History<'_, '_> {
    /// Entries and chunks are counted anew; the new tiers are free.
    pub fn grow(&mut self) -> Outcome<u32> {
        let first_tier = self.plan.tiers() + 1;
        let oracle = Oracle {
            plan: &self.plan,
            image: self.pair.image(),
        };
        let first_free = oracle.first_free();
        let number = bulks::add(&mut self.plan, &mut self.pair)?;
        if number == 0 {
            let events = self.course.grown(first_tier).into_iter();
            let events = events.chain(self.went_home.grown(first_free));
            events.for_each(|event| self.pair.met(event));
            self.totals()?;
            self.lookup_of(&self.keys[0])?;
        }
        Ok(number)
    }

    /// A store that was answered 10, again after one bulk more.
    pub fn again_after_a_bulk(&mut self, kind: Kind, key: &[u8], value: &[u8]) -> Outcome<()> {
        if self.grow()? != 0 {
            return Ok(());
        }
        let number = self.store_of(kind, key, value)?;
        self.expect("a store after one bulk more", number, 0)?;
        self.pair.met(bulks::full_before());
        Ok(())
    }

    /// Counts where the tier of a new entry was free before.
    pub fn joined(&mut self, tier: usize) {
        let oracle = Oracle {
            plan: &self.plan,
            image: self.pair.before(),
        };
        if oracle.first_free() == tier {
            let event = self.course.joined(tier);
            event.into_iter().for_each(|event| self.pair.met(event));
        }
    }
}
