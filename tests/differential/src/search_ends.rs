//! Where a lookup's search ends, found the slow way: the slot of a key that is
//! there, and the empty slot in the last tier for one that is not.

use crate::compare::Outcome;
use crate::oracle::Oracle;
use crate::plan::Plan;
use crate::render::get;
use crate::tally::came;

const FOUND: [&str; 5] = [
    "in a main tier",
    "in an extra tier",
    "at its start slot",
    "after full slots",
    "after a wrap",
];
const ABSENT: [&str; 7] = [
    "in a main tier",
    "in an extra tier",
    "at its start slot",
    "after full slots",
    "after a wrap",
    "in an extra tier without entries",
    "in another slot than in the tier before",
];
const STORED: [&str; 4] = [
    "in the tier and slot where the search had ended",
    "in an earlier tier than the one where the search had ended",
    "in a tier between the first and the last",
    "in a tier that joined the chain",
];

fn found(event: &str) -> String {
    format!("a key found {event}")
}

fn absent(event: &str) -> String {
    format!("a search for an absent key ended {event}")
}

fn stored(event: &str) -> String {
    format!("a new key stored {event}")
}

pub fn planned() -> Vec<String> {
    let found = FOUND.map(found).into_iter();
    found
        .chain(ABSENT.map(absent))
        .chain(STORED.map(stored))
        .collect()
}

/// A key on an accepted image.
pub struct Search<'a> {
    pub plan: &'a Plan,
    pub image: &'a [u8],
    pub key: &'a [u8],
}

impl Search<'_> {
    fn chain(&self) -> Vec<usize> {
        let oracle = Oracle {
            plan: self.plan,
            image: self.image,
        };
        oracle.chain(self.plan.parts(self.key).0)
    }

    fn start(&self) -> usize {
        self.plan.start(self.plan.parts(self.key).1)
    }

    fn slot(&self, tier: usize, slot: usize) -> u64 {
        get(self.image, self.plan.slot(tier, slot), self.plan.slot_size)
    }

    fn first_empty(&self, tier: usize) -> usize {
        let slots = self.plan.slots;
        let mut places = (0..slots).map(|steps| (self.start() + steps) % slots);
        let empty = places.find(|&place| self.slot(tier, place) == 0);
        empty.expect("an accepted tier has an empty slot")
    }

    /// Tier and slot at which the search for an absent key ends.
    pub fn end(&self) -> (usize, usize) {
        let chain = self.chain();
        let last = chain[chain.len() - 1];
        (last, self.first_empty(last))
    }

    /// The key is there, with its record `before` bytes after its entry's
    /// start. Answers what came up.
    pub fn is_at(&self, place: [u64; 4], before: usize) -> Outcome<Vec<String>> {
        let [offset, _, tier, slot] = place.map(|number| number as usize);
        let chunk = (self.slot(tier, slot) >> self.plan.key_bits) as usize;
        let expected = self.plan.chunk(tier, chunk) + before;
        if !self.chain().contains(&tier) || offset != expected {
            return Err(format!(
                "lookup: tier {tier}, slot {slot}, but the record is at {offset}"
            ));
        }
        let events = self.way(tier, slot);
        Ok(came(FOUND, events, found))
    }

    /// The key is absent. Answers what came up.
    pub fn ends_at(&self, place: [u64; 4]) -> Outcome<Vec<String>> {
        let (tier, slot) = self.end();
        if place != [0, 0, tier as u64, slot as u64] {
            return Err(format!(
                "lookup: absent, {place:?}, meant was tier {tier}, slot {slot}"
            ));
        }
        let [main, extra, at_start, later, wrapped] = self.way(tier, slot);
        let no_entries = (0..self.plan.slots).all(|slot| self.slot(tier, slot) == 0);
        let chain = self.chain();
        let before = chain.len().checked_sub(2).map(|place| chain[place]);
        let events = [
            main,
            extra,
            at_start,
            later,
            wrapped,
            extra && no_entries,
            before.is_some_and(|before| self.first_empty(before) != slot),
        ];
        Ok(came(ABSENT, events, absent))
    }

    fn way(&self, tier: usize, slot: usize) -> [bool; 5] {
        let main = self.plan.is_main(tier);
        let start = self.start();
        [main, !main, slot == start, slot != start, slot < start]
    }

    /// The key was absent and is stored now: in the tier where the search for
    /// it ended it has the slot where it ended. Answers what came up.
    pub fn stored_at(&self, tier: usize, slot: usize) -> Outcome<Vec<String>> {
        let chain = self.chain();
        let end = self.end();
        let joined = !chain.contains(&tier);
        let expected = if joined {
            self.start()
        } else {
            self.first_empty(tier)
        };
        if slot != expected {
            return Err(format!(
                "store: slot {slot} of tier {tier}, meant was {expected}"
            ));
        }
        let events = [
            (tier, slot) == end,
            !joined && tier != end.0,
            !joined && tier != end.0 && tier != chain[0],
            joined,
        ];
        Ok(came(STORED, events, stored))
    }
}
