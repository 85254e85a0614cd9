//! An image before it is bytes: chains, slots and entries, which need not
//! have come about by any history, and which may be made wrong on purpose.

use std::collections::BTreeMap;

use crate::draw;
use crate::plan::{Plan, length_size};
use crate::rng::Rng;

/// An entry in its slot.
#[derive(Clone, Debug)]
pub struct Placed {
    pub slot: usize,
    pub slot_value: u64,
    pub first_chunk: usize,
    pub chunks: usize,
    pub key: Vec<u8>,
    pub bytes: Vec<u8>,
}

/// An entry that has no place yet.
#[derive(Clone, Debug)]
pub struct Draft {
    pub lookup_key: u64,
    pub chunks: usize,
    pub key: Vec<u8>,
    pub bytes: Vec<u8>,
}

#[derive(Clone)]
pub struct Model {
    pub plan: Plan,
    /// The tiers of each segment, in chain order.
    pub chains: Vec<Vec<usize>>,
    pub free: Vec<usize>,
    /// By tier index; the first is no tier.
    pub tiers: Vec<Vec<Placed>>,
    pub records: BTreeMap<Vec<u8>, Vec<u8>>,
}

pub fn length_bytes(mut number: usize) -> Vec<u8> {
    let mut bytes = Vec::new();
    for _ in 1..length_size(number) {
        bytes.push(number as u8 | 0x80);
        number >>= 7;
    }
    bytes.push(number as u8);
    bytes
}

pub fn entry_bytes(key: &[u8], value: &[u8]) -> Vec<u8> {
    [
        &length_bytes(key.len())[..],
        key,
        &length_bytes(value.len()),
        value,
    ]
    .concat()
}

impl Model {
    pub fn empty(rng: &mut Rng, plan: &Plan) -> Model {
        let mut free: Vec<usize> = (plan.segments + 1..=plan.tiers()).collect();
        rng.shuffle(&mut free);
        Model {
            plan: plan.clone(),
            chains: (1..=plan.segments).map(|tier| vec![tier]).collect(),
            free,
            tiers: vec![Vec::new(); plan.tiers() + 1],
            records: BTreeMap::new(),
        }
    }

    /// Chains with some empty tiers, and some of the keys placed anywhere.
    pub fn random(rng: &mut Rng, plan: &Plan, keys: &[Vec<u8>]) -> Model {
        let mut model = Model::empty(rng, plan);
        let share = rng.below(101);
        for key in keys {
            if !rng.percent(share) {
                continue;
            }
            let (segment, _) = plan.parts(key);
            if rng.percent(20) {
                model.grow(segment);
            }
            if let Some(value) = draw::fitting_value(rng, plan, key.len()) {
                let tier = *rng.pick(&model.chains[segment]);
                model.put(rng, tier, key, value);
            }
        }
        model
    }

    /// Of one segment: almost all tiers in its chain, with a key in each while
    /// keys last.
    pub fn long_chain(rng: &mut Rng, plan: &Plan, keys: &[Vec<u8>]) -> Model {
        let mut model = Model::empty(rng, plan);
        for _ in rng.below(3)..model.free.len() {
            model.grow(0);
        }
        for (key, tier) in keys.iter().zip(model.chains[0].clone()) {
            if let Some(value) = draw::fitting_value(rng, plan, key.len()) {
                model.put(rng, tier, key, value);
            }
        }
        model
    }

    pub fn grow(&mut self, segment: usize) {
        if let Some(tier) = self.free.pop() {
            self.chains[segment].push(tier);
        }
    }

    fn put(&mut self, rng: &mut Rng, tier: usize, key: &[u8], value: Vec<u8>) {
        let draft = self.draft(key, &value);
        if self.place(rng, tier, draft, 1).is_some() {
            self.records.insert(key.to_vec(), value);
        }
    }

    pub fn draft(&self, key: &[u8], value: &[u8]) -> Draft {
        Draft {
            lookup_key: self.plan.parts(key).1,
            chunks: self.plan.chunks_of(key.len(), value.len()),
            key: key.to_vec(),
            bytes: entry_bytes(key, value),
        }
    }

    /// Puts a draft into clear chunks and the first empty slot, as long as
    /// `spare` slots stay empty. Answers where it stands in the tier's list.
    pub fn place(
        &mut self,
        rng: &mut Rng,
        tier: usize,
        draft: Draft,
        spare: usize,
    ) -> Option<usize> {
        if self.tiers[tier].len() + spare >= self.plan.slots {
            return None;
        }
        let first_chunk = self.clear_run(rng, tier, draft.chunks)?;
        let slot = self.empty_slot(tier, self.plan.start(draft.lookup_key));
        self.place_at(tier, slot, first_chunk, draft)
    }

    pub fn place_at(
        &mut self,
        tier: usize,
        slot: usize,
        first_chunk: usize,
        draft: Draft,
    ) -> Option<usize> {
        let slot_value = draft.lookup_key | (first_chunk as u64) << self.plan.key_bits;
        if slot_value == 0 {
            return None;
        }
        self.tiers[tier].push(Placed {
            slot,
            slot_value,
            first_chunk,
            chunks: draft.chunks,
            key: draft.key,
            bytes: draft.bytes,
        });
        Some(self.tiers[tier].len() - 1)
    }

    pub fn marks(&self, tier: usize) -> Vec<bool> {
        let mut marks = vec![false; self.plan.chunks];
        for placed in &self.tiers[tier] {
            let end = (placed.first_chunk + placed.chunks).min(self.plan.chunks);
            marks[placed.first_chunk.min(end)..end].fill(true);
        }
        marks
    }

    pub fn lowest_clear(&self, tier: usize) -> usize {
        let clear = self.marks(tier).iter().position(|mark| !mark);
        clear.unwrap_or(self.plan.chunks)
    }

    /// A run of clear chunks: the lowest, or the first from a random one.
    pub fn clear_run(&self, rng: &mut Rng, tier: usize, chunks: usize) -> Option<usize> {
        let last = self.plan.chunks.checked_sub(chunks)?;
        let marks = self.marks(tier);
        let is_clear = |first: &usize| marks[*first..first + chunks].iter().all(|mark| !mark);
        let from = if rng.percent(50) {
            0
        } else {
            rng.below(last + 1)
        };
        (from..=last)
            .find(is_clear)
            .or_else(|| (0..=last).find(is_clear))
    }

    pub fn is_full(&self, tier: usize, slot: usize) -> bool {
        self.tiers[tier].iter().any(|placed| placed.slot == slot)
    }

    /// The first empty slot from a start; there must be one.
    pub fn empty_slot(&self, tier: usize, start: usize) -> usize {
        let slots = (0..self.plan.slots).map(|step| (start + step) % self.plan.slots);
        slots
            .into_iter()
            .find(|&slot| !self.is_full(tier, slot))
            .expect("a slot is kept empty")
    }

    pub fn chained_tiers(&self) -> Vec<usize> {
        self.chains.concat()
    }
}
