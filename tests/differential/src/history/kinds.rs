//! Both kinds of store on copies of one image, held against each other and
//! against a removal and a store.

use super::History;
use crate::compare::Outcome;
use crate::edit::{Deed, Edit};
use crate::empty_tiers::{Again, Links};
use crate::kinds::Kind;
use crate::live;
use crate::on_the_spot::{self, Kinds};

impl History<'_, '_> {
    /// A tight replacement has done what a removal and then a store do. They
    /// leave other bytes only where it came back to the tier that it emptied,
    /// with tiers behind it.
    pub fn is_removed_first(&mut self, key: &[u8], value: &[u8], number: u32) -> Outcome<()> {
        let (_, without) = self.pair.remove_on(self.pair.before(), key)?;
        let (again, image) = self.pair.store_on(&without, Kind::OnTheSpot, key, value)?;
        if again != number {
            return Err(format!(
                "store_tight: {number}, but {again} after a removal"
            ));
        }
        if number == 0 && image != self.pair.image() {
            let event = self.came_back(key, &image)?.name();
            self.pair.met(event);
        }
        Ok(())
    }

    /// The map and the counts of entries and chunks are what a removal and a
    /// store leave. Answers where that store went.
    fn came_back(&self, key: &[u8], apart: &[u8]) -> Outcome<Again> {
        let (plan, after) = (&self.plan, self.pair.image());
        let tier = |image| live::entry_of(plan, image, key).map_or(0, |entry| entry.tier);
        let edit = Edit {
            plan,
            before: self.pair.before(),
            after,
            key,
            segment: plan.parts(key).0,
            deed: Deed::Placed(tier(after)),
        };
        let again = Links::of(&edit).again_at(tier(apart));
        let again = again.ok_or("store_tight: not what a removal and a store do")?;
        if live::map(plan, after) != live::map(plan, apart) {
            return Err("store_tight: not the map of a removal and a store".to_string());
        }
        let sent_home = matches!(again, Again::LaterTier);
        self.same_counts(after, apart, sent_home)?;
        Ok(again)
    }

    /// The other kind refuses with the same number.
    pub fn refused_alike(&self, kind: Kind, key: &[u8], value: &[u8], number: u32) -> Outcome<()> {
        let before = self.pair.before();
        let (other, _) = self.pair.store_on(before, kind.other(), key, value)?;
        self.expect(kind.other().name(), other, number)
    }

    /// The same store by the other kind, on a copy of the image before.
    pub fn by_both_kinds(&mut self, kind: Kind, key: &[u8], value: &[u8]) -> Outcome<()> {
        let before = self.pair.before();
        let (number, other) = self.pair.store_on(before, kind.other(), key, value)?;
        self.expect(kind.other().name(), number, 0)?;
        let (on_the_spot, tight) = match kind {
            Kind::OnTheSpot => (self.pair.image(), &other[..]),
            Kind::Tight => (&other[..], self.pair.image()),
        };
        let kinds = Kinds {
            plan: &self.plan,
            before,
            on_the_spot,
            tight,
            key,
            value,
        };
        let events = if self.is_as_many(key, value) {
            self.same_counts(on_the_spot, tight, kinds.tight_sent_home()?)?;
            let mut events = kinds.of_as_many(kind)?;
            events.extend(on_the_spot::store_after(self.rng, &kinds, &self.pair)?);
            events
        } else {
            kinds.of_others(kind)?
        };
        events.into_iter().for_each(|event| self.pair.met(event));
        Ok(())
    }

    /// The check accepts both, with as many entries and marked chunks. Only
    /// the other may have sent a tier home, from its chains to its free ones.
    fn same_counts(&self, one: &[u8], other: &[u8], sent_home: bool) -> Outcome<()> {
        let (number, counts) = self.pair.check_of(one)?;
        let (other_number, mut expected) = self.pair.check_of(other)?;
        if sent_home {
            expected[2] += 1;
            expected[3] = expected[3].saturating_sub(1);
        }
        if (number, other_number) != (0, 0) || counts != expected {
            return Err(format!(
                "check: {number} {counts:?}, {other_number} and meant was {expected:?}"
            ));
        }
        Ok(())
    }
}
