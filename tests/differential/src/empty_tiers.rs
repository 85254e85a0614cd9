//! Empty tiers go home: what an edit must make of the links, read from the
//! image that it got, apart from the reference.

mod events;
mod expected;
mod names;
mod went_home;

pub use names::{Again, passed_by, planned};
pub use went_home::{WentHome, full_before};

use std::ops::Range;

use crate::compare::{Outcome, difference};
use crate::edit::{Deed, Edit};
use crate::live::{self, Live};

/// What an edit found before it wrote.
pub struct Links<'a> {
    edit: &'a Edit<'a>,
    /// The chain of the key's segment.
    chain: Vec<usize>,
    /// The entry of the key.
    old: Option<Live<'a>>,
    /// Its tier, where that has no other entry.
    emptied: Option<usize>,
}

impl<'a> Links<'a> {
    pub fn of(edit: &'a Edit<'a>) -> Links<'a> {
        let old = live::entry_of(edit.plan, edit.before, edit.key);
        let tier = old.map(|old| old.tier);
        Links {
            edit,
            chain: edit.chain(),
            old,
            emptied: tier.filter(|&tier| edit.got().full_slots(tier) == 1),
        }
    }

    /// The extra tier that has no entry once that of the key is out.
    fn emptied_extra(&self) -> Option<usize> {
        self.emptied.filter(|&tier| !self.edit.plan.is_main(tier))
    }

    /// The same, unless the key's entry stays there or comes there again.
    pub fn sent_home(&self) -> Option<usize> {
        let goes = |&tier: &usize| match self.edit.deed {
            Deed::Removed => true,
            Deed::Placed(to) => to != tier,
            Deed::OnTheSpot(_) => false,
        };
        self.emptied_extra().filter(goes)
    }

    /// The free tier that has joined the chain.
    pub fn joined(&self) -> Option<usize> {
        match self.edit.deed {
            Deed::Placed(to) if !self.chain.contains(&to) => Some(to),
            _ => None,
        }
    }

    /// Where a tier stands in the chain, and how many stand behind it.
    fn place(&self, tier: usize) -> (usize, usize) {
        let place = self.chain.iter().position(|&other| other == tier);
        let place = place.expect("an entry's tier is in its chain");
        (place, self.chain.len() - 1 - place)
    }

    /// The edit is a store that came back to the tier that it emptied, with
    /// tiers behind it. A removal sends that tier home, and a store then goes
    /// to one of those, or takes it again as the last of the chain. None: the
    /// store after the removal may not have gone there.
    pub fn again_at(&self, to: usize) -> Option<Again> {
        let came_back = |&tier: &usize| self.edit.deed == Deed::Placed(tier);
        let tier = self.emptied_extra().filter(came_back)?;
        let behind = &self.chain[self.place(tier).0 + 1..];
        match to {
            _ if behind.is_empty() => None,
            to if to == tier => Some(Again::LastTier),
            to => behind.contains(&to).then_some(Again::LaterTier),
        }
    }

    /// Every byte of the global state, the headers and the counters is as it
    /// should be.
    pub fn are_right(&self) -> Outcome<()> {
        self.is_not_behind()?;
        let expected = self.expected();
        for Range { start, end } in self.parts() {
            let after = &self.edit.after[start..end];
            if let Some(at) = difference(&expected[start..end], after) {
                let (at, byte, expected) = (start + at, after[at], expected[start + at]);
                return Err(format!(
                    "links: byte {at} is {byte} by both, meant was {expected}"
                ));
            }
        }
        self.empty_tiers_are_old()
    }

    fn parts(&self) -> Vec<Range<usize>> {
        let plan = self.edit.plan;
        let counters = (1..=plan.tiers()).map(|tier| plan.counters(tier));
        let state = plan.global_state..plan.global_state + 33;
        let mut parts = vec![state, plan.headers..plan.header(plan.segments)];
        parts.extend(counters.map(|start| start..start + 64));
        parts
    }

    /// A tier that is emptied takes any entry, so none goes behind it.
    fn is_not_behind(&self) -> Outcome<()> {
        let (Some(tier), Deed::Placed(to)) = (self.emptied, self.edit.deed) else {
            return Ok(());
        };
        let (place, _) = self.place(tier);
        if !self.chain[..=place].contains(&to) {
            return Err(format!("store: to tier {to}, but {tier} was emptied"));
        }
        Ok(())
    }

    /// Read from both images alone: an extra tier that is chained and has no
    /// entry had none before, and one that had none is still chained.
    fn empty_tiers_are_old(&self) -> Outcome<()> {
        let now = self.edit.left().empty_tiers(self.edit.segment);
        let mut before = self.edit.got().empty_tiers(self.edit.segment);
        before.retain(|&tier| self.edit.deed != Deed::Placed(tier));
        if now != before {
            return Err(format!(
                "links: chained without entries are {now:?}, meant was {before:?}"
            ));
        }
        Ok(())
    }
}
