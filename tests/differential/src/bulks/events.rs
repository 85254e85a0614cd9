//! What calls for one bulk more must have come upon, and histories with them.

use super::Growth;
use crate::channels;
use crate::oracle::Oracle;
use crate::plan::{MOST_TIERS, Plan};
use crate::tally::came;

const ADDED: [&str; 9] = [
    "with no tier free",
    "with tiers left free",
    "where there was none",
    "of several tiers between an inner offset and further bytes",
    "with other bits than 0 from the number of chunks on",
    "over other bytes than 0 in each field that becomes 0",
    "up to the last byte of the image",
    "with bytes left behind it",
    "that makes 1,024 tiers",
];
const REFUSED: [&str; 5] = [
    "without a byte behind the store",
    "for one byte that is lacking",
    "for 1,025 tiers in an image that is long enough",
    "for more tiers in an image that is long enough",
    "for tiers and bytes",
];
const SECOND: &str = "a second bulk added in a history";
const FULL_BEFORE: &str = "a store answered 10 and, after one bulk more, 0";
const BETWEEN: &str = "a bulk added between stores of both kinds and removals";
const NEW_JOINED: &str = "a tier of an added bulk joined a chain";
const OLD_JOINED: &str = "an older free tier joined a chain after a bulk was added";

fn added(event: &str) -> String {
    format!("a bulk added {event}")
}

fn refused(event: &str) -> String {
    format!("13 {event}")
}

pub fn planned() -> Vec<String> {
    let histories = [SECOND, FULL_BEFORE, BETWEEN, NEW_JOINED, OLD_JOINED];
    let orders = (2..=7).map(|first| channels::before(first, 13));
    orders
        .chain(ADDED.map(added))
        .chain(REFUSED.map(refused))
        .chain(histories.map(str::to_string))
        .collect()
}

/// A store answered 10 is done after one bulk more.
pub fn full_before() -> String {
    FULL_BEFORE.to_string()
}

/// Why 13 was given.
pub(super) fn no_bulk(plan: &Plan, length: usize) -> Vec<String> {
    let (bytes, tiers) = plan.lacks(length);
    let events = [
        tiers == 0 && bytes == plan.bulk_size,
        tiers == 0 && bytes == 1,
        tiers == 1 && bytes == 0,
        tiers > 1 && bytes == 0,
        tiers > 0 && bytes > 0,
    ];
    came(REFUSED, events, refused)
}

impl Growth<'_> {
    pub(super) fn events(&self) -> Vec<String> {
        let plan = &self.new;
        let tiers = plan.bulk_tiers * plan.tier_size;
        let further = plan.bulk_size - plan.bulk_offset - tiers;
        let events = [
            self.old_head() == 0,
            self.old_head() != 0,
            self.old.bulks == 0,
            plan.bulk_tiers > 1 && plan.bulk_offset > 0 && further > 0,
            self.new_tiers().any(|tier| self.keeps_bits(tier)),
            self.new_tiers().all(|tier| self.was_other(tier)),
            plan.bytes_after == 0,
            plan.bytes_after > 0,
            plan.tiers() == MOST_TIERS,
        ];
        came(ADDED, events, added)
    }

    /// In the byte that has the last chunk's bit.
    fn keeps_bits(&self, tier: usize) -> bool {
        let last = (self.new.chunks - 1) / 8;
        self.after[self.new.list(tier) + last] != 0
    }

    /// Each slot, previous, lowest free chunk, segment, order, entry count
    /// and some chunk's bit.
    fn was_other(&self, tier: usize) -> bool {
        let (plan, image) = (&self.new, self.before);
        let slots = (0..plan.slots).map(|slot| (plan.slot(tier, slot), plan.slot_size));
        let counters = [(8, 8), (16, 8), (24, 4), (28, 4), (32, 4)];
        let counters = counters.map(|(at, width)| (plan.counters(tier) + at, width));
        let oracle = Oracle { plan, image };
        slots
            .chain(counters)
            .all(|(at, width)| image[at..at + width].iter().any(|&byte| byte != 0))
            && (0..plan.chunks).any(|chunk| oracle.mark(tier, chunk))
    }
}

/// What a history has done before it added a bulk, and since.
#[derive(Default)]
pub struct Course {
    /// The first tier that it added.
    first_tier: Option<usize>,
    /// Stores, tight stores and removals answered 0, before and since.
    edits: [[bool; 3]; 2],
}

impl Course {
    pub fn stored(&mut self, tight: bool) {
        self.edited(usize::from(tight));
    }

    pub fn removed(&mut self) {
        self.edited(2);
    }

    fn edited(&mut self, edit: usize) {
        self.edits[usize::from(self.first_tier.is_some())][edit] = true;
    }

    /// A bulk was added. Answers what came up, as do the next two.
    pub fn grown(&mut self, first_tier: usize) -> Option<String> {
        let second = self.first_tier.is_some();
        self.first_tier.get_or_insert(first_tier);
        second.then(|| SECOND.to_string())
    }

    /// A free tier joined a chain.
    pub fn joined(&self, tier: usize) -> Option<String> {
        let event = match tier < self.first_tier? {
            true => OLD_JOINED,
            false => NEW_JOINED,
        };
        Some(event.to_string())
    }

    pub fn ended(&self) -> Option<String> {
        let between = self.edits == [[true; 3]; 2];
        between.then(|| BETWEEN.to_string())
    }
}
