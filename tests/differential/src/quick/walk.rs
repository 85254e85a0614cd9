//! The walk of a quick lookup, the slow way: all slots of a tier up to the
//! empty one are read, also those behind the find, so that it can be told
//! what the walk did not meet.

use super::stored::Stored;
use crate::plan::Plan;
use crate::render::get;

pub struct Walk<'a> {
    pub plan: &'a Plan,
    pub image: &'a [u8],
    pub key: &'a [u8],
    lookup_key: u64,
    /// The tiers walked; the last is the one in which the walk ended.
    pub visits: Vec<Visit<'a>>,
    pub end: End,
}

/// A tier, its full slots up to the empty one or all of them, and its next.
pub struct Visit<'a> {
    pub tier: usize,
    pub met: Vec<Met<'a>>,
    pub empty: Option<usize>,
    pub next: u64,
}

pub struct Met<'a> {
    pub slot: usize,
    pub number: u64,
    /// It has the lookup key that is sought.
    pub same: bool,
    pub stored: Stored<'a>,
}

#[derive(Clone, Copy, PartialEq)]
pub enum End {
    /// In this one of the tier's full slots.
    Found(usize),
    Absent(usize),
    /// The entry in this one of the tier's full slots.
    BrokenEntry(usize),
    BrokenNext,
    /// As many tiers as there are, and one more to come.
    TooManyTiers,
    NoEmptySlot,
}

impl<'a> Walk<'a> {
    pub fn of(plan: &'a Plan, image: &'a [u8], key: &'a [u8]) -> Walk<'a> {
        let (segment, lookup_key) = plan.parts(key);
        let mut walk = Walk {
            plan,
            image,
            key,
            lookup_key,
            visits: Vec::new(),
            end: End::TooManyTiers,
        };
        let mut tier = segment + 1;
        for _ in 0..plan.tiers() {
            let visit = walk.visit(tier);
            let end = walk.end_in(&visit);
            tier = visit.next as usize;
            walk.visits.push(visit);
            if let Some(end) = end {
                walk.end = end;
                break;
            }
        }
        walk
    }

    fn visit(&self, tier: usize) -> Visit<'a> {
        let plan = self.plan;
        let start = plan.start(self.lookup_key);
        let (mut met, mut empty) = (Vec::new(), None);
        for slot in (start..plan.slots).chain(0..start) {
            let number = get(self.image, plan.slot(tier, slot), plan.slot_size);
            if number == 0 {
                empty = Some(slot);
                break;
            }
            let chunk = (number >> plan.key_bits) % (1 << plan.chunk_bits);
            met.push(Met {
                slot,
                number,
                same: number & plan.all_ones() == self.lookup_key,
                stored: Stored::read(plan, self.image, tier, chunk as usize),
            });
        }
        let (at, width) = plan.next_field(tier);
        Visit {
            tier,
            met,
            empty,
            next: get(self.image, at, width),
        }
    }

    /// None where the walk goes on to the next tier.
    fn end_in(&self, visit: &Visit) -> Option<End> {
        for (place, met) in visit.met.iter().enumerate() {
            if met.same && !met.stored.faults.is_empty() {
                return Some(End::BrokenEntry(place));
            }
            if met.same && met.stored.key == self.key {
                return Some(End::Found(place));
            }
        }
        match (visit.empty, visit.next) {
            (None, _) => Some(End::NoEmptySlot),
            (Some(slot), 0) => Some(End::Absent(slot)),
            (Some(_), next) if self.is_extra(next) => None,
            _ => Some(End::BrokenNext),
        }
    }

    pub fn is_extra(&self, next: u64) -> bool {
        next > self.plan.segments as u64 && next <= self.plan.tiers() as u64
    }

    pub fn last(&self) -> &Visit<'a> {
        &self.visits[self.visits.len() - 1]
    }

    /// The full slot that decided, if one did.
    pub fn met(&self) -> Option<&Met<'a>> {
        match self.end {
            End::Found(place) | End::BrokenEntry(place) => self.last().met.get(place),
            _ => None,
        }
    }

    /// What the quick lookup of a good key must answer.
    pub fn answer(&self) -> (u32, [u64; 4]) {
        let tier = self.last().tier;
        let (number, place) = match (self.end, self.met()) {
            (End::Found(_), Some(met)) => {
                let stored = &met.stored;
                (0, [stored.value_at, stored.value.len(), tier, met.slot])
            }
            (End::Absent(slot), _) => (1, [0, 0, tier, slot]),
            _ => (18, [0; 4]),
        };
        (number, place.map(|number| number as u64))
    }
}
