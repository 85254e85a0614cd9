//! What the walks of a whole run must have come upon.

use super::stored::FAULTS;
use super::walk::{End, Met, Walk};
use crate::oracle::Oracle;
use crate::render::get;
use crate::tally::came;

const BROKEN: [&str; 10] = [
    "a broken entry of another key before the key's own",
    "a next that is a main tier",
    "a next one past the tiers",
    "a next further past the tiers",
    "a next with a high byte set",
    "a tier that leads to itself",
    "a circle of extra tiers",
    "a main tier without an empty slot",
    "an extra tier without an empty slot",
    "no empty slot for one with bits above the chunk's alone",
];
const FOUND: [&str; 11] = [
    "before a broken entry",
    "past a broken entry with another lookup key",
    "in a slot with bits above the chunk's",
    "with more chunks than field 17",
    "with a value that ends with the chunks",
    "in a free tier",
    "in another segment's tier",
    "among C full slots",
    "in the last of C full slots",
    "before a broken next",
    "in the first of its two slots",
];
const ABSENT: [&str; 3] = [
    "in a free tier",
    "in another segment's tier",
    "past a broken entry with another lookup key",
];

fn broken(event: &str) -> String {
    format!("a walk that met {event}")
}

fn found(event: &str) -> String {
    format!("a quick lookup that found its key {event}")
}

fn absent(event: &str) -> String {
    format!("a quick lookup that ended {event}")
}

pub fn planned() -> impl Iterator<Item = String> {
    let faults = FAULTS.map(broken).into_iter();
    faults
        .chain(BROKEN.map(broken))
        .chain(FOUND.map(found))
        .chain(ABSENT.map(absent))
}

impl Walk<'_> {
    pub fn events(&self) -> Vec<String> {
        match self.end {
            End::Found(place) => came(FOUND, self.of_find(place), found),
            End::Absent(_) => came(ABSENT, self.of_absence(), absent),
            _ => self.of_broken(),
        }
    }

    /// An entry is counted only where nothing else is broken in it.
    fn of_broken(&self) -> Vec<String> {
        let mut events = came(BROKEN, self.broken(), broken);
        if let Some(met) = self.met()
            && let [fault] = met.stored.faults[..]
        {
            events.push(broken(fault));
        }
        events
    }

    fn broken(&self) -> [bool; 10] {
        let (last, end) = (self.last(), self.end);
        let (tiers, next) = (self.plan.tiers() as u64, last.next);
        let by_next = end == End::BrokenNext;
        let main = self.plan.is_main(last.tier);
        let itself = next == last.tier as u64;
        let low = next & 0xFFFF_FFFF;
        [
            matches!(end, End::BrokenEntry(place) if self.stands_behind(place)),
            by_next && next <= self.plan.segments as u64,
            by_next && next == tiers + 1,
            by_next && next > tiers + 1 && next == low,
            by_next && next != low && (low == 0 || self.is_extra(low)),
            end == End::TooManyTiers && itself,
            end == End::TooManyTiers && !itself,
            end == End::NoEmptySlot && main,
            end == End::NoEmptySlot && !main,
            end == End::NoEmptySlot && last.met.iter().any(|met| self.is_above(met)),
        ]
    }

    /// Of a slot's bits only some above the chunk's are set.
    fn is_above(&self, met: &Met) -> bool {
        let bits = self.plan.key_bits + self.plan.chunk_bits;
        bits < 64 && met.number.is_multiple_of(1 << bits)
    }

    /// The key stands in a good entry behind the broken one of another key.
    fn stands_behind(&self, place: usize) -> bool {
        let met = &self.last().met;
        met[place].stored.key != self.key && met[place + 1..].iter().any(|met| self.is_key(met))
    }

    fn is_key(&self, met: &Met) -> bool {
        met.same && met.stored.faults.is_empty() && met.stored.key == self.key
    }

    fn of_find(&self, place: usize) -> [bool; 11] {
        let (plan, last) = (self.plan, self.last());
        let (met, behind) = (&last.met[place], &last.met[place + 1..]);
        let is_broken = |met: &Met| met.same && !met.stored.faults.is_empty();
        let stored = &met.stored;
        let bits = plan.key_bits + plan.chunk_bits;
        let chunks = plan.chunks_of(stored.key.len(), stored.value.len());
        let full = last.empty.is_none();
        [
            behind.iter().any(is_broken),
            self.passed_broken(),
            bits < 64 && met.number >> bits != 0,
            chunks > plan.most_chunks,
            stored.value_at + stored.value.len() == plan.chunk(last.tier, plan.chunks),
            self.is_free(),
            self.is_of_another(),
            full,
            full && place + 1 == plan.slots,
            last.next != 0 && !self.is_extra(last.next),
            behind.iter().any(|met| self.is_key(met)),
        ]
    }

    fn of_absence(&self) -> [bool; 3] {
        [self.is_free(), self.is_of_another(), self.passed_broken()]
    }

    /// A broken entry was passed over for its lookup key, before the end.
    fn passed_broken(&self) -> bool {
        let met = self.visits.iter().flat_map(|visit| &visit.met);
        let met = met.take_while(|met| !self.is_key(met));
        met.into_iter()
            .any(|met| !met.same && !met.stored.faults.is_empty())
    }

    /// The last tier stands in the free chain.
    fn is_free(&self) -> bool {
        let (plan, image) = (self.plan, self.image);
        let first = Oracle { plan, image }.first_free();
        self.leads_to_last(first as u64)
    }

    /// The last tier stands in another segment's chain.
    fn is_of_another(&self) -> bool {
        let own = self.visits[0].tier - 1;
        let mut others = (0..self.plan.segments).filter(|&segment| segment != own);
        others.any(|other| {
            let next = get(self.image, self.plan.header(other) + 16, 8);
            self.leads_to_last(next)
        })
    }

    /// Nexts lead from here to the last tier of the walk, an extra one.
    fn leads_to_last(&self, mut next: u64) -> bool {
        let last = self.last().tier;
        for _ in 0..self.plan.tiers() {
            if self.plan.is_main(last) || !self.is_extra(next) {
                return false;
            }
            if next == last as u64 {
                return true;
            }
            next = get(self.image, self.plan.counters(next as usize), 8);
        }
        false
    }
}
