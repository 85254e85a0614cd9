//! What an edit came upon that empties a tier, or that passes an empty one.

use super::Links;
use super::names::{
    MAIN, PASSED, PLACES, REMOVED, REPLACED, WENT, call_name, kept, main_emptied, passed, removed,
    replaced, went,
};
use crate::edit::Deed;
use crate::kinds::Call;
use crate::tally::came;

impl Links<'_> {
    pub fn of_removal(&self) -> Vec<String> {
        let mut events = self.passed();
        match self.sent_home() {
            Some(tier) => events.extend(self.removed(tier)),
            None => events.extend(self.main_emptied()),
        }
        events
    }

    /// Of a store of as many chunks as it replaces, or of others.
    pub fn of_store(&self, call: Call, as_many: bool) -> Vec<String> {
        let mut events = self.passed();
        let (Some(tier), Some(old)) = (self.emptied_extra(), self.old) else {
            return events;
        };
        let call = call_name(call, as_many);
        match self.edit.deed {
            Deed::Placed(to) => events.extend(self.replaced(call, tier, to)),
            _ if self.edit.got().has_earlier_room(&old) => events.push(kept(call)),
            _ => {}
        }
        events
    }

    fn removed(&self, tier: usize) -> Vec<String> {
        let (place, behind) = self.place(tier);
        let near = self.chain[place - 1..].iter().take(3).copied();
        let neighbours: Vec<_> = near.filter(|&other| other != tier).collect();
        let got = self.edit.got();
        let lags = |&tier: &usize| got.low_mark(tier) != got.lowest_clear(tier) as u64;
        let empty = got.empty_tiers(self.edit.segment);
        let events = [
            got.first_free() == 0,
            got.first_free() != 0,
            neighbours.iter().any(lags),
            neighbours.iter().any(|tier| empty.contains(tier)),
            place < 256 && place + behind >= 256,
        ];
        let mut events = came(REMOVED, events, removed);
        let after_an_extra = usize::from(place > 1);
        events.push(removed(PLACES[3 * after_an_extra + behind.min(2)]));
        events
    }

    fn main_emptied(&self) -> Option<String> {
        let main = self.edit.plan.is_main(self.emptied?);
        let with_others = usize::from(self.chain.len() > 1);
        main.then(|| main_emptied(MAIN[with_others]))
    }

    fn replaced(&self, call: &str, tier: usize, to: usize) -> Vec<String> {
        let (place, behind) = self.place(tier);
        let free = self.edit.got().first_free() != 0;
        let home = to != tier;
        let events = [
            home && !free,
            home && free,
            home && behind > 0,
            !home && !free,
            !home && free,
            !home && behind > 0,
        ];
        let mut events = came(REPLACED, events, |event| replaced(call, event));
        if home {
            events.extend(self.went(place, to));
        }
        events
    }

    fn went(&self, place: usize, to: usize) -> Vec<String> {
        let near = self.chain[place - 1] == to;
        let main = self.edit.plan.is_main(to);
        let events = [
            near && main,
            near && !main,
            !near && main,
            !near && !main,
            self.edit.got().empty_tiers(self.edit.segment).contains(&to),
        ];
        came(WENT, events, went)
    }

    /// Where a tier of the chain was empty and is so still.
    fn passed(&self) -> Vec<String> {
        let mut empty = self.edit.got().empty_tiers(self.edit.segment);
        empty.retain(|&tier| self.edit.deed != Deed::Placed(tier));
        if empty.is_empty() {
            return Vec::new();
        }
        let home = self.sent_home().is_some();
        let removed = self.edit.deed == Deed::Removed;
        let stored = matches!(self.edit.deed, Deed::Placed(_));
        let events = [
            removed && !home,
            removed && home,
            stored && !home,
            !removed && !stored,
            stored && home,
        ];
        came(PASSED, events, passed)
    }
}
