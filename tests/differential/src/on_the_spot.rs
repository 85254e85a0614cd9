//! What both kinds of store make of one image. A replacement of as many chunks
//! stays on the spot by the default kind; nothing else tells the two apart.

mod events;
mod later;

pub use events::{planned, set_on_the_spot};
pub use later::store_after;

use std::ops::Range;

use crate::compare::{Outcome, difference};
use crate::edit::{Deed, Edit};
use crate::empty_tiers::Links;
use crate::kinds::Kind;
use crate::live::{self, Live};
use crate::model::entry_bytes;
use crate::plan::Plan;

/// An image, and what each kind leaves of it by one store, answered 0.
pub struct Kinds<'a> {
    pub plan: &'a Plan,
    pub before: &'a [u8],
    pub on_the_spot: &'a [u8],
    pub tight: &'a [u8],
    pub key: &'a [u8],
    pub value: &'a [u8],
}

impl<'a> Kinds<'a> {
    /// A replacement of as many chunks. Answers what came up by the kind that
    /// was called.
    pub fn of_as_many(&self, kind: Kind) -> Outcome<Vec<String>> {
        let replacement = |after| self.replacement(after).ok_or("store: not there");
        let on_the_spot = replacement(self.on_the_spot)?;
        on_the_spot.stays(self.value)?;
        if live::map(self.plan, self.on_the_spot) != live::map(self.plan, self.tight) {
            return Err("store and store_tight: not the same map".to_string());
        }
        Ok(match kind {
            Kind::OnTheSpot => on_the_spot.events_on_the_spot(),
            Kind::Tight => replacement(self.tight)?.events_tight(),
        })
    }

    /// The tight store has left the right links. Answers whether it sent home
    /// the tier that it emptied.
    pub fn tight_sent_home(&self) -> Outcome<bool> {
        let new = live::entry_of(self.plan, self.tight, self.key);
        let new = new.ok_or("store_tight: not there")?;
        let edit = Edit {
            plan: self.plan,
            before: self.before,
            after: self.tight,
            key: self.key,
            segment: new.segment,
            deed: Deed::Placed(new.tier),
        };
        let links = Links::of(&edit);
        links.are_right()?;
        Ok(links.sent_home().is_some())
    }

    /// A new key, or a replacement of another number of chunks.
    pub fn of_others(&self, kind: Kind) -> Outcome<Vec<String>> {
        if let Some(at) = difference(self.on_the_spot, self.tight) {
            return Err(format!("store and store_tight differ at byte {at}"));
        }
        Ok(match (kind, self.replacement(self.on_the_spot)) {
            (Kind::OnTheSpot, Some(replacement)) => replacement.events_moved(),
            _ => Vec::new(),
        })
    }

    /// None where the key was absent.
    fn replacement(&self, after: &'a [u8]) -> Option<Replacement<'a>> {
        Some(Replacement {
            plan: self.plan,
            before: self.before,
            after,
            old: live::entry_of(self.plan, self.before, self.key)?,
            new: live::entry_of(self.plan, after, self.key)?,
        })
    }
}

/// An entry before and after a store of its key.
struct Replacement<'a> {
    plan: &'a Plan,
    before: &'a [u8],
    after: &'a [u8],
    old: Live<'a>,
    new: Live<'a>,
}

impl Replacement<'_> {
    /// Tier, slot and chunks are the old ones, the entry's own bytes are
    /// written, and no other byte and no other entry has changed.
    fn stays(&self, value: &[u8]) -> Outcome<()> {
        let place = |entry: &Live| [entry.tier, entry.slot, entry.chunk, entry.chunks];
        let (old, new) = (place(&self.old), place(&self.new));
        if old != new {
            return Err(format!("on the spot: {new:?}, meant was {old:?}"));
        }
        if self.after[self.new.bytes(self.plan)] != entry_bytes(self.new.key, value) {
            return Err("on the spot: not the entry's bytes".to_string());
        }
        if let Some(at) = self.changed_outside() {
            return Err(format!("on the spot: byte {at} is none of the entry's"));
        }
        if self.others(self.before) != self.others(self.after) {
            return Err("on the spot: another entry has changed".to_string());
        }
        Ok(())
    }

    /// A byte that has changed and is none of the new entry's.
    fn changed_outside(&self) -> Option<usize> {
        let Range { start, end } = self.new.bytes(self.plan);
        let front = difference(&self.before[..start], &self.after[..start]);
        let back = difference(&self.before[end..], &self.after[end..]);
        front.or(back.map(|at| at + end))
    }

    /// The entries of all other keys, with their rows.
    fn others<'a>(&self, image: &'a [u8]) -> Vec<Live<'a>> {
        let mut entries = live::entries(self.plan, image);
        entries.retain(|entry| entry.key != self.new.key);
        entries
    }
}
