//! What a chain of a model is like.

use std::collections::HashMap;

use super::events::{self, BITS, KEYS, LARGE, TIERS};
use super::keys::Taste;
use super::trial::Trial;
use crate::model::{Model, Placed};
use crate::tally::came;

pub fn accepted(trial: &Trial, segment: usize) -> Vec<String> {
    let shapes = shapes(trial, segment).into_iter();
    shapes.map(|shape| events::accepted(&shape)).collect()
}

pub fn refused(trial: &Trial, segment: usize) -> Vec<String> {
    let shapes = shapes(trial, segment).into_iter();
    shapes.map(|shape| events::refused(&shape)).collect()
}

fn shapes(trial: &Trial, segment: usize) -> Vec<String> {
    let chain = Chain::of(&trial.model, trial.keys.taste, segment);
    let name = str::to_string;
    let mut shapes = came(TIERS, chain.tiers(), name);
    shapes.extend(came(BITS, chain.bits(), name));
    shapes.extend(came(KEYS, chain.keys(), name));
    shapes.extend(came(LARGE, chain.large(), name));
    shapes.extend(events::size(chain.total));
    if chain.taste == Taste::Alike(8) {
        shapes.extend(events::alike_size(chain.total));
    }
    shapes
}

struct Chain<'a> {
    model: &'a Model,
    taste: Taste,
    /// How many entries each tier has, and all of them.
    tiers: Vec<usize>,
    total: usize,
    /// The same of the chain before, if there is one.
    before: Vec<usize>,
    entries: Vec<&'a Placed>,
}

impl Chain<'_> {
    fn of(model: &Model, taste: Taste, segment: usize) -> Chain<'_> {
        let counts = |chain: &Vec<usize>| {
            let tiers = chain.iter().map(|&tier| model.tiers[tier].len());
            tiers.collect::<Vec<usize>>()
        };
        let chain = &model.chains[segment];
        let before = segment.checked_sub(1).map(|before| &model.chains[before]);
        let tiers = counts(chain);
        Chain {
            model,
            taste,
            total: tiers.iter().sum(),
            tiers,
            before: before.map_or(Vec::new(), counts),
            entries: chain.iter().flat_map(|&tier| &model.tiers[tier]).collect(),
        }
    }

    fn tiers(&self) -> [bool; TIERS.len()] {
        let plan = &self.model.plan;
        let several = self.tiers.len() > 1;
        let full = self.tiers.iter().all(|&entries| entries + 1 == plan.slots);
        let with = |entries: &usize| *entries > 0;
        let first = self.tiers.iter().position(with);
        let last = self.tiers.iter().rposition(with);
        let is_behind = |placed: &&Placed| placed.slot < plan.start(self.lookup_key(placed));
        let filled = |tiers: &[usize]| tiers.iter().filter(|entries| with(entries)).count();
        let (Some(first), Some(last)) = (first, last) else {
            return [false; TIERS.len()];
        };
        [
            !several && self.total < 3,
            !several && full,
            self.tiers.len() == 12 && full,
            several && plan.slots == 512,
            first > 0,
            self.tiers[first..last].contains(&0),
            last + 1 < self.tiers.len(),
            self.entries.iter().any(is_behind),
            filled(&self.tiers) > 1 && filled(&self.before) > 1,
        ]
    }

    fn bits(&self) -> [bool; BITS.len()] {
        let plan = &self.model.plan;
        let bits = plan.key_bits;
        let greatest = bits == plan.most_key_bits();
        [
            plan.slot_size == 4,
            plan.slot_size == 8,
            bits == 1,
            bits == 2,
            bits == 3,
            bits == 8,
            greatest && plan.slot_size == 4,
            greatest && plan.slot_size == 8,
        ]
    }

    fn keys(&self) -> [bool; KEYS.len()] {
        let plan = &self.model.plan;
        let wide = plan.key_bits > 16;
        let some = self.total > 8;
        let has = |is: fn(usize) -> bool| self.entries.iter().any(|placed| is(placed.key.len()));
        [
            some && wide && self.taste == Taste::OneLookupKey,
            some && self.taste == Taste::OneHash,
            some && wide && matches!(self.taste, Taste::Alike(_)),
            self.most_alike(plan.all_ones()) > plan.slots,
            wide && self.has_part_zero(),
            has(|length| length == 1),
            has(|length| length >= 128),
            has(|length| length == 1024),
        ]
    }

    fn large(&self) -> [bool; LARGE.len()] {
        let plan = &self.model.plan;
        let bits = plan.key_bits;
        let before = self.before.iter().sum::<usize>();
        let alike = |low: usize| match bits > low && self.total > 12_300 {
            true => self.most_alike((1 << low) - 1),
            false => 0,
        };
        [
            bits == 8 && self.total > 8192,
            bits == 32 && self.total > 8192,
            bits == 8 && self.total > 16_384,
            bits == 32 && self.total > 16_384,
            alike(13) > 12_300,
            alike(8) > 12_300 && alike(8) + 1000 < self.total,
            alike(3) > 12_300 && bits == 8,
            before > 8192 && self.total > 8192,
            before > 8192 && self.total < 100,
            self.tiers.len() * plan.slots > 65_536,
            self.total > 65_536,
            self.tiers.len() > 256,
        ]
    }

    fn lookup_key(&self, placed: &Placed) -> u64 {
        placed.slot_value & self.model.plan.all_ones()
    }

    /// A lookup key of all ones that the hash does not have.
    fn has_part_zero(&self) -> bool {
        let plan = &self.model.plan;
        let mut entries = self.entries.iter();
        entries.any(|placed| {
            let part = || reference::xxh64(&placed.key) >> plan.segments.ilog2();
            self.lookup_key(placed) == plan.all_ones() && part() & plan.all_ones() == 0
        })
    }

    /// The most entries whose lookup keys have the same bits of a mask.
    fn most_alike(&self, mask: u64) -> usize {
        let mut counts: HashMap<u64, usize> = HashMap::new();
        for placed in &self.entries {
            *counts.entry(self.lookup_key(placed) & mask).or_default() += 1;
        }
        counts.into_values().max().unwrap_or(0)
    }
}
